void abort (void); void exit (int); void *memcpy (void *, const void *, unsigned); int memcmp (const void *, const void *, unsigned);
union u { unsigned char b[8]; unsigned short h[4]; unsigned w[2]; unsigned long long d; };
int tab[4][2] = { {1, 2}, {3, 4}, {5, 6}, {7, 8} };
struct s { char c; short s[2]; int i; } sa[2] = { { 'a', { 1, 2 }, 3 }, { 'b', { 4, 5 }, 6 } };
unsigned get32 (const unsigned char *p) { return p[0] | p[1] << 8 | p[2] << 16 | (unsigned) p[3] << 24; }
int main (void)
{
  union u u; struct s sb[2]; char *cp; short *sp; int *ip = &tab[1][0], i, x;
  u.d = 0x0102030405060708ULL;
  if (u.b[0] != 8 || u.h[1] != 0x0506 || u.w[1] != 0x01020304) abort ();
  if (get32 (u.b + 2) != 0x03040506) abort ();
  memcpy (sb, sa, sizeof sa); if (memcmp (sb, sa, sizeof sa) != 0 || sb[1].i != 6) abort ();
  cp = (char *) &sb[1]; if (*cp != 'b' || *(short *) (cp + 2) != 4 || *(int *) (cp + 8) != 6) abort ();
  sp = &sb[0].s[1]; if (*sp-- != 2 || *sp != 1) abort ();
  for (i = 0, x = 0; i < 6; i++) x += ip[i] * (i + 1); if (x != 3 + 8 + 15 + 24 + 35 + 48) abort ();
  if ((char *) &tab[2] - (char *) tab != 16 || (unsigned long) &sa[1] - (unsigned long) &sa[0] != sizeof (struct s)) abort ();
  exit (0);
}
