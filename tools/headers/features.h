/* The library of cbi-port: what <features.h> declares; only what docs/PORTING.md names is there. */
#ifndef CBI_FEATURES
#define CBI_FEATURES
#define __GLIBC__ 2
#define __GLIBC_MINOR__ 36
#define __GLIBC_PREREQ(major, minor) ((2 << 16) + 36 >= ((major) << 16) + (minor))
#endif
