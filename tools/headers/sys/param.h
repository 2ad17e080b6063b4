/* The library of cbi-port: what <sys/param.h> declares; only what docs/PORTING.md names is there. */
#ifndef CBI_SYS_PARAM
#define CBI_SYS_PARAM
#include <sys/types.h>
#include <limits.h>
#define MAXPATHLEN 4096
#define MIN(a, b) (((a) < (b)) ? (a) : (b))
#define MAX(a, b) (((a) > (b)) ? (a) : (b))
#define HZ 100
#define EXEC_PAGESIZE 4096
#define NOGROUP (-1)
#define MAXHOSTNAMELEN 64
#define MAXSYMLINKS 20
#define NOFILE 256
#define NCARGS 131072
#define DEV_BSIZE 512
#endif
