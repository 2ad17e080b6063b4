/* The library of cbi-port: what there is of <alloca.h>. */
#include <stddef.h>
#define alloca(n) __builtin_alloca(n)
