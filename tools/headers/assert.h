/* The library of cbi-port: <assert.h>. */
#undef assert
#ifdef NDEBUG
#define assert(e) ((void)0)
#else
#define assert(e) __builtin_assert(e)
#endif
#ifndef static_assert
#define static_assert _Static_assert
#endif
