#include <stdlib.h>
#include <string.h>
int cmp (const void *a, const void *b) { return strcmp (*(const char **) a, *(const char **) b); }
long fact (long n) { return n <= 1 ? 1 : n * fact (n - 1); }
int (*pick (int n)) (const void *, const void *) { return n ? cmp : NULL; }
typedef struct { int (*cb) (void *, int); void *arg; } hook;
static int bump (void *p, int n) { return *(int *) p += n; }
static int apply (hook *h, int n) { return h->cb (h->arg, n); }
int main (void) {
  char *v[] = { "c", "a", "b" }; int k = 3; hook h; void *vp; int (*fp) (void *, int);
  qsort (v, 3, sizeof *v, pick (1)); if (*v[0] != 'a' || *v[2] != 'c') abort ();
  h.cb = bump; h.arg = &k; if (apply (&h, 4) != 7 || apply (&h, 1) != 8) abort ();
  fp = h.cb; vp = (void *) fp; if (vp != (void *) bump || !vp) abort ();
  if (((int (*) (void *, int)) vp) (&k, 2) != 10) abort ();
  if (fact (10) != 3628800) abort (); if (pick (0)) abort ();
  return 0; }
