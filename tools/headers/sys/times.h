/* The library of cbi-port: what <sys/times.h> declares; only what docs/PORTING.md names is there. */
#ifndef CBI_SYS_TIMES
#define CBI_SYS_TIMES
#include <sys/types.h>
struct tms { clock_t tms_utime; clock_t tms_stime; clock_t tms_cutime; clock_t tms_cstime; };
clock_t times(struct tms *);
#endif
