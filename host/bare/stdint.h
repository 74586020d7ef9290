/* The types of stdint.h that petalbuzz.h and the host use, from the compiler
 * itself: for a compiler that comes without headers. */
#ifndef BARE_STDINT_H
#define BARE_STDINT_H
typedef __UINT8_TYPE__ uint8_t;
typedef __UINT32_TYPE__ uint32_t;
typedef __UINT64_TYPE__ uint64_t;
#endif
