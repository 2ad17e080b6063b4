#include <stdio.h>
#include <stdint.h>
int64_t square(int64_t n) { return n * n; }
uint64_t hash(const char *s) { uint64_t h = 14695981039346656037ULL; while (*s) { h ^= (unsigned char)*s++; h *= 1099511628211ULL; } return h; }
int main(void)
{
    long long a = 3000000000LL, b = -7;
    unsigned long long u = 18446744073709551615ULL;
    printf("%lld %lld %lld %lld\n", a + b, a * b, a / b, a % b);
    printf("%llu %llu %llx\n", u / 10, u % 1000, u >> 4);
    printf("%lld %d %d\n", square(-1000000007), a > b, (int)(u == -1));
    printf("%llu\n", (unsigned long long)hash("hello"));
    a <<= 3; a |= 5; a ^= 0xff00; a -= b--; a++;
    printf("%lld %lld %lld\n", a, b, -a >> 2);
    printf("%d %u %d\n", (int)a, (unsigned)(a >> 32), (short)a);
    long long t[3] = { 1, -1, 1LL << 40 };
    int i;
    for (i = 0; i < 3; i++) b += t[i];
    printf("%lld %s\n", b, b ? "yes" : "no");
    printf("%lld\n", b > 0 ? a : b);
    return (int)(a % 100);
}
/* writes
2999999993 -21000000000 -428571428 4
1844674407370955161 615 fffffffffffffff
1000000014000000049 1 1
11831194018420276491
23999942413 -8 -5999985604
-1769861363 5 3853
1099511627768 yes
23999942413
status 13 */
