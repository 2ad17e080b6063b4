#include <stdlib.h>
#include <stdio.h>
#include <string.h>
char buf[100];
int main (void) {
  long long v = -1; unsigned long long w; int i; long l = 0x12345678; unsigned char *p = (unsigned char *) &l; void *q;
  w = v; if (w != 0xffffffffffffffffULL || (unsigned) w != ~0u || (v >> 63) != -1 || (w >> 63) != 1) abort ();
  for (i = 0, w = 1; i < 64; i++, w <<= 1) if (w == 0 || (w & (w - 1))) abort ();
  if (w) abort ();
  if (p[0] != 0x78 || p[3] != 0x12) abort ();
  q = buf; q = (char *) q + 10; memcpy (q, "xyz", 4); if (strcmp (buf + 10, "xyz") || (char *) q - buf != 10) abort ();
  sprintf (buf, "%d %s %lld", 5, "abc", -5LL); if (strcmp (buf, "5 abc -5")) abort ();
  if ((unsigned long) buf % 4 > 3) abort ();
  { int a[2] = { 1, 2 }; int *r = (int *) ((char *) a + 4); if (*r != 2) abort (); }
  { short s = -1; unsigned short us = s; if (us != 65535 || (int) s != -1 || (unsigned) s != 0xffffffffu || (long long) us != 65535) abort (); }
  return 0; }
