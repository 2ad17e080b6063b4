#include <stdio.h>
int s; unsigned u; long long ll; unsigned long long ull; short h; signed char c; unsigned char uc; _Bool b;
int main(void)
{
    int most = 2147483647, least = -2147483647 - 1;
    unsigned long long great = 18446744073709551615ULL;
    int r = __builtin_add_overflow(most, 1, &s);
    printf("%d %d\n", r, s);
    r = __builtin_add_overflow(most, 1u, &u);
    printf("%d %u\n", r, u);
    r = __builtin_sub_overflow(1u, 2, &u);
    printf("%d %u\n", r, u);
    r = __builtin_sub_overflow(1u, 2, &ll);
    printf("%d %lld\n", r, ll);
    r = __builtin_mul_overflow(least, -1, &s);
    printf("%d %d\n", r, s);
    r = __builtin_mul_overflow(least, -1, &ll);
    printf("%d %lld\n", r, ll);
    r = __builtin_mul_overflow(great, great, &ull);
    printf("%d %llu\n", r, ull);
    r = __builtin_add_overflow(great, 1, &ull);
    printf("%d %llu\n", r, ull);
    r = __builtin_mul_overflow(-3LL, great, &ll);
    printf("%d %lld\n", r, ll);
    r = __builtin_mul_overflow(3000000000u, 3000000000u, &ull);
    printf("%d %llu\n", r, ull);
    r = __builtin_add_overflow(100, 28, &c);
    printf("%d %d\n", r, c);
    r = __builtin_add_overflow(-100, -28, &c);
    printf("%d %d\n", r, c);
    r = __builtin_sub_overflow(0, 1, &uc);
    printf("%d %d\n", r, uc);
    r = __builtin_mul_overflow(200, 200, &h);
    printf("%d %d\n", r, h);
    r = __builtin_saddll_overflow(9223372036854775807LL, 1, &ll);
    printf("%d %d\n", r, ll < 0);
    r = __builtin_umul_overflow(65536, 65536, &u);
    printf("%d %d\n", r, u == 0);
    printf("%d %d\n", __builtin_add_overflow_p(most, 1, 0), __builtin_add_overflow_p(most, 1, 0LL));
    return 0;
}
/* writes
1 -2147483648
0 2147483648
1 4294967295
0 -1
1 -2147483648
0 2147483648
1 1
1 0
1 3
0 9000000000000000000
1 -128
0 -128
1 255
1 -25536
1 1
1 1
1 0
status 0 */
