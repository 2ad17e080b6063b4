#include <stdlib.h>
int x;
int f (int n) { return ({ int r; if (n > 3) r = n; else r = -n; r; }); }
#define SWAP(a, b) do { __typeof__ (a) t_ = (a); (a) = (b); (b) = t_; } while (0)
#define ABS(v) ({ int v_ = (v); v_ < 0 ? -v_ : v_; })
int main (void) { int a = 1, b = 2; char *s = "a", *t = "b"; SWAP (a, b); SWAP (s, t); if (a != 2 || *s != 'b') abort (); if (f (5) != 5 || f (2) != -2) abort ();
 if (ABS (-3) + ABS (4) * ABS (ABS (-2)) != 11) abort (); x = ({ int i, n = 0; for (i = 0; i < 5; i++) n += i; n; }); if (x != 10) abort (); return 0; }
