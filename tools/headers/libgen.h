/* The library of cbi-port: what <libgen.h> declares; only what docs/PORTING.md names is there. */
#ifndef CBI_LIBGEN
#define CBI_LIBGEN
char *basename(char *);
char *dirname(char *);
#endif
