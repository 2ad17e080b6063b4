/* The library of cbi-port: what <sys/file.h> declares; only what docs/PORTING.md names is there. */
#ifndef CBI_SYS_FILE
#define CBI_SYS_FILE
#include <fcntl.h>
#define L_SET 0
#define L_INCR 1
#define L_XTND 2
#define LOCK_SH 1
#define LOCK_EX 2
#define LOCK_UN 8
#define LOCK_NB 4
int flock(int, int);
#endif
