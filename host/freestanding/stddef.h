/* What <stddef.h> has, for a compiler that comes without its headers. */
#ifndef HOST_STDDEF_H
#define HOST_STDDEF_H
typedef __SIZE_TYPE__ size_t;
typedef __PTRDIFF_TYPE__ ptrdiff_t;
#define NULL ((void *)0)
#endif
