/* What the examples ask of Apple's header of this name, declared for a machine that has no Apple SDK. */
#pragma once
#define RTLD_NOW 0x2
void *dlopen(const char *, int);
