/* The library of cbi-port: what <err.h> declares; only what docs/PORTING.md names is there. */
#ifndef CBI_ERR
#define CBI_ERR
#include <stdarg.h>
void warn(const char *, ...);
void vwarn(const char *, va_list);
void warnx(const char *, ...);
void vwarnx(const char *, va_list);
void err(int, const char *, ...);
void verr(int, const char *, va_list);
void errx(int, const char *, ...);
void verrx(int, const char *, va_list);
#endif
