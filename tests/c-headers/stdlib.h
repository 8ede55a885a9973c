/* What the programs in C need of <stdlib.h>: the kit's clang comes without headers for x86-64. */
#ifndef STDLIB_H
#define STDLIB_H
void exit(int status) __attribute__((noreturn));
unsigned long strtoul(const char *text, char **end, int base);
#endif
