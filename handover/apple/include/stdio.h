/* What the examples ask of Apple's header of this name, declared for a machine that has no Apple SDK. */
#pragma once
typedef struct __sFILE FILE;
extern FILE *__stderrp;
#define stderr __stderrp
int printf(const char *, ...);
int fprintf(FILE *, const char *, ...);
