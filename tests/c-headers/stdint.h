/* What the programs in C need of <stdint.h>: the kit's clang comes without headers for x86-64. */
#ifndef STDINT_H
#define STDINT_H
typedef __UINT8_TYPE__ uint8_t;
typedef __UINT16_TYPE__ uint16_t;
typedef __UINT32_TYPE__ uint32_t;
#endif
