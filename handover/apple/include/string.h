/* What the examples ask of Apple's header of this name, declared for a machine that has no Apple SDK. */
#pragma once
#include <stddef.h>
size_t strlen(const char *);
char *strrchr(const char *, int);
int strcmp(const char *, const char *);
