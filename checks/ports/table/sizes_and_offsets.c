#include <stddef.h>
#include <stdint.h>
#include <stdlib.h>
struct a { char c; int n; char d; short s; };
struct b { struct a a[2]; char *p; char t[5]; };
union u { int i; char c[7]; };
enum e { X };
int main(void)
{
    int k[10], i = 0; char s[] = "hello";
    if (sizeof(struct a) != 12 || sizeof(struct b) != 36 || sizeof(union u) != 8 || sizeof(enum e) != 4 || sizeof(char *) != 4 || sizeof(long) != 4 || sizeof(long long) != 8 || sizeof(short) != 2) abort();
    if (offsetof(struct a, s) != 10 || offsetof(struct b, p) != 24 || offsetof(struct b, a[1].n) != 16) abort();
    if (sizeof k / sizeof *k != 10 || sizeof s != 6 || sizeof "abc" != 4 || sizeof(i++) != 4 || i || sizeof 'a' != 4 || sizeof(char) + sizeof s[0] != 2) abort();
    if (sizeof(uint16_t) != 2 || sizeof(size_t) != 4 || sizeof(int[3][4]) != 48 || sizeof(*&k) != 40 || sizeof(&k) != 4 || sizeof(0LL) != 8 || -sizeof(int) < 5) abort();
    return 0;
}
