/* The library of cbi-port: <stdalign.h>. */
#define alignas _Alignas
#define alignof _Alignof
