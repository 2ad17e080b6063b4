/* The library of cbi-port: <stdnoreturn.h>. */
#define noreturn _Noreturn
