/* The library of cbi-port: what there is of <sys/types.h>. */
#include <stddef.h>
#ifndef CBI_SYS_TYPES
#define CBI_SYS_TYPES
typedef int pid_t;
typedef unsigned uid_t;
typedef unsigned gid_t;
typedef unsigned mode_t;
typedef unsigned long long dev_t;
typedef unsigned ino_t;
typedef unsigned nlink_t;
typedef int blksize_t;
typedef int blkcnt_t;
typedef int off_t;
typedef int ssize_t;
typedef int time_t;
typedef int clock_t;
typedef int suseconds_t;
typedef unsigned useconds_t;
typedef unsigned id_t;
typedef int key_t;
typedef int clockid_t;
typedef unsigned rlim_t;
typedef unsigned fsblkcnt_t;
typedef unsigned fsfilcnt_t;
typedef char *caddr_t;
typedef unsigned char u_char;
typedef unsigned short u_short;
typedef unsigned u_int;
typedef unsigned long u_long;
typedef unsigned short ushort;
typedef unsigned uint;
typedef unsigned long ulong;
#endif
