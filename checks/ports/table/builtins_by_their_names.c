#include <stdint.h>
#include <stdio.h>
#include <stdlib.h>
#include <string.h>
static int popcount(unsigned x) { return __builtin_popcount(x); }
static inline int clz(unsigned x) { return x ? __builtin_clz(x) : 32; }
int ctz(unsigned x) { return x == 0 ? 32 : __builtin_ctz(x); }
int ffs(int x) { return __builtin_ffs(x); }
static int parity(uint64_t x) { return __builtin_parityll(x); }
uint16_t bswap16(uint16_t x) { return __builtin_bswap16(x); }
static uint32_t bswap32(uint32_t x) { return __builtin_bswap32(x); }
uint64_t bswap64(uint64_t x) { return __builtin_bswap64(x); }
static int abs_of(int x) { return __builtin_abs(x); }
static void trap(void) { puts("trapped"); __builtin_exit(popcount(7)); }
static int add_overflow(int a, int b) { int c; return __builtin_add_overflow(a, b, &c) ? -1 : c; }
static int expect(long x) { return (int)__builtin_expect(x, 1); }
static size_t copied(char *to, const char *from) { __builtin_strcpy(to, from); return __builtin_strlen(to); }
int puts(const char *s) { return printf("%s.\n", s); }
static int unreachable = 5;
int main(void)
{
    char text[16];
    int x = -9;
    printf("%d %d %d %d %d %d\n", popcount(255), clz(0), clz(1), ctz(0), ctz(40), ffs(24));
    printf("%d %x %x %llx\n", parity(7ULL << 40), bswap16(0x1234), (unsigned)bswap32(0x12345678), (unsigned long long)bswap64(0x0123456789abcdefULL));
    printf("%d %d %d %d\n", abs_of(x), add_overflow(2147483647, 1), add_overflow(2, 3), expect(unreachable));
    printf("%d %s\n", (int)copied(text, "seven"), text);
    __builtin_puts("own");
    if (x > 0)
        __builtin_unreachable();
    trap();
    return 0;
}
/* writes
8 32 31 32 3 4
1 3412 78563412 efcdab8967452301
9 -1 5 5
5 seven
own.
trapped.
status 3 */
