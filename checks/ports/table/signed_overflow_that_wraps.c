/* With -fwrapv signed numbers wrap where they overflow. */
#include <limits.h>
#include <stdio.h>
static int hash(const char *text)
{
    int value = 5381;
    while (*text)
        value = value * 33 + *text++;
    return value;
}
int main(void)
{
    int most = INT_MAX, least = INT_MIN, n = most;
    long long wide = LLONG_MAX, other = LLONG_MIN;
    signed char small = 127;
    unsigned char byte = 200;
    short half = 32767;
    struct { int field : 5; int whole; } s = { 15, INT_MAX };
    printf("%d %d %d %d\n", most + 1, least - 1, most * most, -least);
    n++;
    printf("%d ", n--);
    printf("%d ", n);
    n += 10;
    printf("%d ", n);
    n -= 20;
    printf("%d ", n);
    n *= 3;
    printf("%d %d\n", n, n + most);
    n = most;
    n <<= 3;
    printf("%d %d %d %d\n", n, byte << 24, -1 << 4, 3 << 30);
    printf("%lld %lld %lld %lld %lld\n", wide + 1, other - 1, wide * 3, -other, wide << 1);
    small++;
    half += 1;
    byte <<= 1;
    s.field++;
    s.whole++;
    printf("%d %d %d %d %d\n", small, half, byte, s.field, s.whole);
    printf("%d %d\n", hash("a longer line of text"), (most + 1 < most) + 2 * (least - 1 > least));
    return 0;
}
/* flags -fwrapv */
/* writes
-2147483648 2147483647 1 -2147483648
-2147483648 2147483647 -2147483639 2147483637 2147483615 -34
-8 -939524096 -16 -1073741824
-9223372036854775808 9223372036854775807 9223372036854775805 -9223372036854775808 -2
-128 -32768 144 -16 -2147483648
322309519 3
status 0 */
