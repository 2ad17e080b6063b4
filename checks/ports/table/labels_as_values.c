#include <stdlib.h>
int run (const unsigned char *code) {
  static void *ops[] = { &&halt, &&inc, &&dbl, &&dec };
  int acc = 0;
  goto *ops[*code++];
inc: acc++; goto *ops[*code++];
dbl: acc *= 2; goto *ops[*code++];
dec: acc--; goto *ops[*code++];
halt: return acc;
}
int g (int i) { static const void *const t[] = { &&a, &&b, &&c }; int r = 0; goto *t[i]; a: r += 1; b: r += 10; c: r += 100; return r; }
int main (void) { unsigned char p[] = { 1, 1, 2, 1, 3, 2, 0 }; if (run (p) != 8) abort (); if (g (0) != 111 || g (1) != 110 || g (2) != 100) abort (); return 0; }
