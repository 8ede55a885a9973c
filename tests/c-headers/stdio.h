/* What the programs in C need of <stdio.h>, as glibc for x86-64 has it: the kit's clang comes without headers for x86-64. */
#ifndef STDIO_H
#define STDIO_H
#include <stddef.h>
typedef struct _IO_FILE FILE;
extern FILE *stderr;
extern FILE *stdin;
extern FILE *stdout;
FILE *fopen(const char *name, const char *mode);
size_t fread(void *to, size_t size, size_t count, FILE *file);
size_t fwrite(const void *from, size_t size, size_t count, FILE *file);
int ferror(FILE *file);
int fflush(FILE *file);
int fclose(FILE *file);
int printf(const char *format, ...);
int fprintf(FILE *file, const char *format, ...);
#endif
