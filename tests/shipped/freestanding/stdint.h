/* What include/dimpsyholt.h needs of stdint.h, for a compiler that comes without headers. */
#ifndef SHIPPED_STDINT_H
#define SHIPPED_STDINT_H
typedef __INT32_TYPE__ int32_t;
typedef __UINT32_TYPE__ uint32_t;
#endif
