/* The library of cbi-port: what <error.h> declares; only what docs/PORTING.md names is there. */
#ifndef CBI_ERROR
#define CBI_ERROR
extern unsigned error_message_count;
extern int error_one_per_line;
extern void (*error_print_progname)(void);
void error(int, int, const char *, ...);
void error_at_line(int, int, const char *, unsigned, const char *, ...);
#endif
