/* The library of cbi-port: what <sys/utsname.h> declares; only what docs/PORTING.md names is there. */
#ifndef CBI_SYS_UTSNAME
#define CBI_SYS_UTSNAME
struct utsname { char sysname[65]; char nodename[65]; char release[65]; char version[65]; char machine[65]; };
int uname(struct utsname *);
#endif
