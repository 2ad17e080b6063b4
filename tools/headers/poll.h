/* The library of cbi-port: what <poll.h> declares; only what docs/PORTING.md names is there. */
#ifndef CBI_POLL
#define CBI_POLL
typedef unsigned long nfds_t;
struct pollfd { int fd; short events; short revents; };
#define POLLIN 1
#define POLLPRI 2
#define POLLOUT 4
#define POLLERR 8
#define POLLHUP 16
#define POLLNVAL 32
int poll(struct pollfd *, nfds_t, int);
#endif
