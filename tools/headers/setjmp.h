/* The library of cbi-port: what <setjmp.h> declares; only what docs/PORTING.md names is there. */
#ifndef CBI_SETJMP
#define CBI_SETJMP
struct __cbi_jump { int registers[6]; int saved; unsigned mask[32]; };
typedef struct __cbi_jump jmp_buf[1];
typedef struct __cbi_jump sigjmp_buf[1];
int sigsetjmp(sigjmp_buf, int);
int setjmp(struct __cbi_jump *);
int _setjmp(struct __cbi_jump *);
void longjmp(struct __cbi_jump *, int);
void _longjmp(struct __cbi_jump *, int);
void siglongjmp(struct __cbi_jump *, int);
#endif
