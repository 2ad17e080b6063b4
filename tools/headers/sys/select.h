/* The library of cbi-port: what <sys/select.h> declares; only what docs/PORTING.md names is there. */
#ifndef CBI_SYS_SELECT
#define CBI_SYS_SELECT
#include <sys/types.h>
#include <signal.h>
#include <sys/time.h>
typedef struct { int bits[32]; } fd_set;
#define FD_SETSIZE 1024
#define FD_ZERO(set) __builtin_memset((set), 0, sizeof(fd_set))
#define FD_SET(n, set) ((void)((set)->bits[(n) / 32] |= 1 << (n) % 32))
#define FD_CLR(n, set) ((void)((set)->bits[(n) / 32] &= ~(1 << (n) % 32)))
#define FD_ISSET(n, set) (((set)->bits[(n) / 32] >> (n) % 32 & 1) != 0)
int select(int, fd_set *, fd_set *, fd_set *, struct timeval *);
int pselect(int, fd_set *, fd_set *, fd_set *, const struct timespec *, const sigset_t *);
#endif
