struct empty { }; struct one { char c; }; struct z { int n; char d[0]; }; struct fl { int n; short d[]; };
struct fl g = { 2, { 7, 8 } };
extern void abort (void); extern void *malloc (unsigned);
struct one ro (int n) { struct one o; o.c = n; return o; }
int main () { struct fl *p = malloc (sizeof *p + 4 * sizeof (short)); int i; struct empty e, f; f = e; for (i = 0; i < 4; i++) p->d[i] = i; if (p->d[3] != 3 || sizeof (struct fl) != 4 || sizeof (struct z) != 4 || g.d[1] != 8 || sizeof (struct empty) != 0) abort (); if (ro (65).c != 'A') abort (); return 0; }
