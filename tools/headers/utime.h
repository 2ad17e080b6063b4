/* The library of cbi-port: what <utime.h> declares; only what docs/PORTING.md names is there. */
#ifndef CBI_UTIME
#define CBI_UTIME
#include <sys/types.h>
struct utimbuf { time_t actime; time_t modtime; };
int utime(const char *, const struct utimbuf *);
#endif
