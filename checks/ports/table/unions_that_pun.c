#include <stdlib.h>
union u { unsigned i; unsigned char c[4]; struct { unsigned short lo, hi; } h; };
union l { long long n; int w[2]; };
int main(void)
{
    union u u = { 0x01020304 };
    union l l;
    if (u.c[0] != 4 || u.c[3] != 1 || u.h.lo != 0x304) abort();
    u.c[1] = 0xff;
    if (u.i != 0x0102ff04) abort();
    u.h.hi = 0;
    if (u.i != 0xff04) abort();
    l.n = -2; if (l.w[0] != -2 || l.w[1] != -1) abort();
    l.w[1] = 1; if (l.n != 0x1fffffffeLL) abort();
    return 0;
}
