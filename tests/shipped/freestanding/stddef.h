/* What include/dimpsyholt.h needs of stddef.h, for a compiler that comes without headers. */
#ifndef SHIPPED_STDDEF_H
#define SHIPPED_STDDEF_H
typedef __SIZE_TYPE__ size_t;
#ifndef NULL
#define NULL ((void *)0)
#endif
#endif
