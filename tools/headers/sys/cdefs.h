/* The library of cbi-port: what <sys/cdefs.h> declares; only what docs/PORTING.md names is there. */
#ifndef CBI_SYS_CDEFS
#define CBI_SYS_CDEFS
#include <features.h>
#define __BEGIN_DECLS
#define __END_DECLS
#define __P(args) args
#define __PMT(args) args
#define __THROW
#define __CONCAT(a, b) a ## b
#define __STRING(x) #x
#define __dead
#define __unused
#define __RCSID(x)
#define __COPYRIGHT(x)
#define __FBSDID(x)
#endif
