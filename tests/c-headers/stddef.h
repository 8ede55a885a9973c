/* What the programs in C need of <stddef.h>: the kit's clang comes without headers for x86-64. */
#ifndef STDDEF_H
#define STDDEF_H
typedef __SIZE_TYPE__ size_t;
#define NULL ((void *)0)
#endif
