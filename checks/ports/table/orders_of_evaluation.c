#include <stdlib.h>
int g = 0;
static inline int side (int v) { g = g * 10 + v; return v; }
static void order (int a, int b) { if (a >= b) abort (); }
int cond (int a, int b, int c) { return a ? b ? 1 : 2 : c ? 3 : 4; }
unsigned sw (unsigned char c) { switch (c) { case 0x80 ... 0xff: return 1; case '0': case '1': return c - '0' + 10; case '\n': return 3; } return 4; }
const char *str (int n) { static const char *const t[] = { "zero", "one", "two" }; return n < 0 || n >= (int) (sizeof t / sizeof *t) ? "?" : t[n]; }
int main ()
{
  volatile int v = 3; register int r = v; const int c = r + 1; auto int a = c;
  if (side (1) && side (0) || side (2)) if (g != 102) abort ();
  order (cond (1, 1, 0), cond (1, 0, 0)); order (cond (0, 0, 1), cond (0, 1, 0));
  if (sw (200) != 1 || sw ('1') != 11 || sw ('\n') != 3 || sw ('x') != 4) abort ();
  if (str (2)[2] != 'o' || *str (3) != '?' || a != 4) abort ();
  for (v = 0; v < 5; ++v) ; if (v != 5) abort ();
  { int k, t = 0; for (k = 10; k-- > 0;) { if (k % 3) continue; t += k; } if (t != 18) abort (); }
  { enum { A = 1 << 3, B = A | 1, C = ~0 }; if (B != 9 || C != -1) abort (); }
  { struct { int x; } s1 = { 1 }, s2; s2 = s1; if (s2.x != 1) abort (); }
  return 0;
}
