/* The library of cbi-port: what there is of <stddef.h>. */
#ifndef CBI_STDDEF
#define CBI_STDDEF
typedef unsigned size_t;
typedef int ptrdiff_t;
typedef int wchar_t;
#undef NULL
#define NULL ((void *)0)
#endif
