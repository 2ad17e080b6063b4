#include <stdlib.h>
#include <limits.h>
static int calls;
static int call(int n) { calls++; return n; }
int main(void)
{
    int a = 5, b = 3, c, *p = &a; unsigned u = 1, v; long l = 3; unsigned long ul = 5;
    c = (a++, b += a, b); if (c != 9 || a != 6) abort();
    c = a > b ? a : b; if (c != 9) abort();
    c = call(0) && call(1); if (c || calls != 1) abort();
    c = call(2) || call(1); if (c != 1 || calls != 2) abort();
    if (!(call(1) && !call(0)) || calls != 4) abort();
    a = b = c = 7; if (a + b + c != 21) abort();
    u -= 2; if (u != UINT_MAX || u / 2 != INT_MAX || (int)u != -1 || -1 < (int)u || u > -1) abort();
    if (-1 < 1u || (-7) / 2 != -3 || -7 % 3 != -1 || 7 % -3 != 1 || (-8 >> 1) != -4 || (1u << 31) >> 31 != 1) abort();
    v = ~0u; v &= 0xf0; v |= 1; v ^= 3; v <<= 4; v >>= 1; v %= 1000; v *= 3; if (v != 2808) abort();
    if (l - ul < 0 || l - (long)ul != -2 || INT_MIN != -2147483647 - 1 || 2147483648u != 0x80000000) abort();
    *p += *p * 2; if (a != 21 || !p != 0 || !!p != 1 || (p ? 1 : 2) != 1) abort();
    c = a == 21 ? b == 8 ? 1 : 2 : 3; if (c != 2) abort();
    c = 0; c += c++ == 0 ? 5 : 6; 
    c = - - 4 + + + 3 - -1 + ~-1 + !0; if (c != 9) abort();
    c = 'a' + '\n' + '\x41' + '\101' + '\\' - '\''; if (c != 97 + 10 + 65 + 65 + 92 - 39) abort();
    c = 010 + 0x10 + 10; if (c != 34) abort();
    c = sizeof(int) * 2 + (a & 1 | b ^ 2); if (c != 8 + (1 | 5)) abort();
    { int i = 0; int k[4] = { 0 }; k[i++] = i; k[i] = i++ + 1; if (i != 2) abort(); }
    if ((1 ? -1 : 1u) != UINT_MAX || (char)(1 ? 300 : 'a') != 44) abort();
    return 0;
}
