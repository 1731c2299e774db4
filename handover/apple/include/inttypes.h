/* What the examples ask of Apple's header of this name, declared for a machine that has no Apple SDK. */
#pragma once
#include <stdint.h>
#define PRIu64 "llu"
