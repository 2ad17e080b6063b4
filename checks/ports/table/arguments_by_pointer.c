#include <stdarg.h>
#include <stdlib.h>
static int depth;
int (*vec[3]) (int, ...);
static int va1 (int n, ...) { va_list a; int r; va_start (a, n); r = va_arg (a, int) - va_arg (a, int); va_end (a); return r * n; }
static int rec (int n, va_list a) { return n ? va_arg (a, int) + rec (n - 1, a) * 2 : 0; }
static int va2 (int n, ...) { va_list a; int r; va_start (a, n); r = rec (n, a); va_end (a); return r; }
static void ptrs (int n, ...) { va_list a; va_start (a, n); while (n--) { int *p = va_arg (a, int *); *p += 1 + ++depth; } va_end (a); }
static unsigned long long wide (char c, ...) { va_list a; unsigned long long r; va_start (a, c); r = va_arg (a, unsigned long long) + va_arg (a, unsigned) + c; va_end (a); return r; }
int main (void)
{
  int x = 0, y = 0;
  vec[0] = va1; vec[1] = va2;
  if (vec[0] (2, 9, 4) != 10) abort ();
  if (vec[1] (3, 1, 2, 3) != 1 + 2 * (2 + 2 * 3)) abort ();
  ptrs (2, &x, &y); if (x != 2 || y != 3) abort ();
  if (wide ('a', 1ULL << 35, 7u) != (1ULL << 35) + 7 + 'a') abort ();
  return 0;
}
