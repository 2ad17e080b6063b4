#include <stdlib.h>
/* packing of fields, masks and shifts */
unsigned long rot(unsigned long x, int n) { return (x << n) | (x >> (32 - n)); }
short f1(short a, short b) { return a * b; }
unsigned char f2(unsigned char a) { return a << 4 | a >> 4; }
int f3(unsigned x) { return (int)x >> 4; }
long long f4(int a, unsigned b) { return (long long)a * b; }
unsigned long long f5(unsigned long long a) { return a / 3 * 3 == a; }
int f6(long long a, long long b) { return a < b ? -1 : a > b; }
unsigned f7(int a) { return a / 2u; }
int main(void)
{
  if (rot(0x80000001ul, 4) != 0x18) abort ();
  if (f1 (300, 300) != 24464) abort ();
  if (f2 (0x1f) != 0xf1) abort ();
  if (f3 (0xfffffff0u) != -1) abort ();
  if (f4 (-3, 4000000000u) != -12000000000LL) abort ();
  if (!f5 (30000000000000003ULL)) abort ();
  if (f6 (-1, 1) != -1 || f6 (5000000000LL, 4999999999LL) != 1 || f6 (7, 7)) abort ();
  if (f7 (-2) != 0x7fffffff) abort ();
  exit (0);
}
