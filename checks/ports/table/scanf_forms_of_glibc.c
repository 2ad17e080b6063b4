#include <errno.h>
#include <stdio.h>
#include <stdlib.h>
int main(void)
{
    int a = -7, n = -1, k, r;
    unsigned u = 7, v = 7;
    short h = 1;
    unsigned short g = 1;
    signed char b = 1;
    unsigned char e = 1;
    long long l = 1;
    unsigned long long m = 2;
    char s[20] = "?", c[6] = ".....", *made = NULL, *word = NULL;
    r = sscanf("99999999999 4294967297", "%d %u", &a, &u);
    printf("%d %d %u %d\n", r, a, u, errno == ERANGE);
    r = sscanf("-99999999999 -4294967297 -5", "%d %u %i", &a, &u, &n);
    printf("%d %d %u %d\n", r, a, u, n);
    r = sscanf("99999 300 77777777777777777777 77777777777777777777 65535 511", "%hd %hhd %lld %llu %hu %hhu", &h, &b, &l, &m, &g, &e);
    printf("%d %d %d %lld %llu %d %d\n", r, h, b, l, m, g, e);
    r = sscanf("-9223372036854775809 -1 -18446744073709551616", "%lld %llu %llu", &l, &m, &m);
    printf("%d %lld %llu\n", r, l, m);
    r = sscanf("-9223372036854775808 18446744073709551615 0x7fffffffffffffff", "%lld %llu %lli", &l, &m, &l);
    printf("%d %lld %llu\n", r, l, m);
    r = sscanf("-2147483648 2147483648 -2147483649", "%d %d %d", &n, &a, &k);
    printf("%d %d %d\n", r, n, a);
    r = sscanf("0xg 0x 010 0b1", "%x%1s %x %i", &u, s, &v, &a);
    printf("%d %u %s %u %d\n", r, u, s, v, a);
    r = sscanf("ab", "%5c", c);
    printf("%d %s\n", r, c);
    r = sscanf("a-c]x", "%[]a-]%2s", s, c);
    printf("%d %s %s\n", r, s, c);
    r = sscanf("abcdefgh", "%[a-c-e]", s);
    printf("%d %s\n", r, s);
    r = sscanf("zaxq-", "%[z-a]", s);
    printf("%d %s\n", r, s);
    r = sscanf("12", "%y", &n) + sscanf("x", "%[x", s);
    printf("%d\n", r);
    r = sscanf("12 x", "%d %", &n);
    printf("%d %d\n", r, n);
    r = sscanf("", "%d", &n) + sscanf("  ", "%s", s) + sscanf("5", "%*d %d", &n);
    printf("%d\n", r);
    r = sscanf("5%", "%d %%%n", &n, &a);
    printf("%d %d %d\n", r, n, a);
    r = sscanf("a longer word than the first room of twenty-four letters, which grows", "%ms %m[^,]", &word, &made);
    printf("%d %s %s\n", r, word, made);
    free(word);
    free(made);
    return 0;
}
/* writes
2 2147483647 4294967295 1
3 -2147483648 4294967295 -5
6 -31073 44 9223372036854775807 18446744073709551615 65535 255
3 -9223372036854775808 18446744073709551615
3 9223372036854775807 18446744073709551615
3 -2147483648 2147483647
4 0 g 0 8
1 ab...
2 a- c]
1 abcde
1 za
0
1 12
-3
1 5 2
2 a longer word than the first room of twenty-four letters
status 0 */
