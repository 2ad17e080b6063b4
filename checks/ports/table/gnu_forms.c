#include <stdlib.h>
#define max(a, b) ({ __typeof__(a) a_ = (a); __typeof__(b) b_ = (b); a_ > b_ ? a_ : b_; })
static int __attribute__((noinline, unused)) square(int n) { return n * n; }
static __inline__ int next(int n) { return n + 1; }
extern void gone(void) __attribute__((noreturn));
struct __attribute__((packed)) tight { char c; int n; };
struct loose { char c; int n; } __attribute__((packed));
int range(int n) { switch (n) { case 1 ... 5: return 1; case 6: case 8 ... 9: return 2; default: return 3; } }
int a[] = { [0 ... 3] = 7, [5] = 1 };
struct old { int x, y; } o = { y: 4, x: 3 };
int main(void)
{
    int n = 3, z = 0;
    asm volatile ("" : : : "memory");
    __asm__ ("" : "+r" (n));
    if (max(n, square(2)) != 4 || max(next(n), 1u) != 4) abort();
    if ((n ?: 5) != 3 || (z ?: 5) != 5) abort();
    if (sizeof(struct tight) != 5 || sizeof(struct loose) != 5) abort();
    if (range(3) != 1 || range(6) != 2 || range(9) != 2 || range(7) != 3 || a[2] != 7 || sizeof a != 24 || o.y != 4) abort();
    if (__builtin_expect(n == 3, 1) && __builtin_constant_p(4) && __builtin_strlen("abc") == 3 && __builtin_abs(-2) == 2 && __builtin_popcount(255) == 8 && __builtin_clz(1) == 31 && __builtin_ctz(8) == 3 && __builtin_ffs(4) == 3)
        z = __extension__ 5;
    if (z != 5 || __alignof__(int) != 4 || !__builtin_types_compatible_p(int, int)) __builtin_abort();
    z = ({ int s = 0, i; for (i = 0; i < 4; i++) s += i; s; });
    if (z != 6) abort();
    if (n < 0) __builtin_unreachable();
    exit(0);
}
