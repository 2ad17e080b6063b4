struct foo { unsigned char a; unsigned short b; int c; long long d; };
struct foo gf = { 1, 2, 3, 4LL };
void bar (struct foo *p, struct foo q) { *p = q; p->a++; }
struct foo ret (int n) { struct foo r; r.a = n; r.b = n * 1000; r.c = -n; r.d = (long long) n << 40; return r; }
int main ()
{
  struct foo x, y[3];
  int i;
  bar (&x, gf);
  if (x.a != 2 || x.b != 2 || x.d != 4) __builtin_abort ();
  for (i = 0; i < 3; i++) y[i] = ret (i * 100);
  if (y[2].a != 200 || y[2].b != (unsigned short) 200000 || y[2].c != -200 || y[2].d != 200LL << 40) __builtin_abort ();
  x = y[1], y[0] = x;
  if (y[0].d != 100LL << 40) __builtin_abort ();
  __builtin_exit (0);
}
