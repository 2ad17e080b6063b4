#include <string.h>
#include <stdlib.h>
struct r { int a; short b, c; };
int main (void) { struct r x = { 1, 2, 3 }, y = { 0 }; int a[4] = { 1, 2, 3, 4 }, i = 2; memcpy (&y.a, &x.a, 8); if (y.c != 3) abort (); memset (a, 0, i * sizeof (int)); if (a[1] || a[2] != 3) abort ();
 memset (a, 0, 4 * i + 4); if (a[2] || a[3] != 4) abort (); memset (&x, 0, 4); if (x.a || x.b != 2) abort (); return 0; }
