/* The library of cbi-port: what <memory.h> declares; only what docs/PORTING.md names is there. */
#ifndef CBI_MEMORY
#define CBI_MEMORY
#include <string.h>
#endif
