extern void abort (void);
extern int printf (const char *, ...);
static int cnt;
static int inc (void) { return cnt++; }
int *ptr (int *p) { cnt++; return p; }
int main ()
{
  int a[10] = {0}, i = 0, *p = a;
  a[inc ()] += 5; if (cnt != 1 || a[0] != 5) abort ();
  *ptr (a + 1) -= 3; if (cnt != 2 || a[1] != -3) abort ();
  (*ptr (&a[2]))++; if (cnt != 3 || a[2] != 1) abort ();
  p[i++] = i++ ? 1 : 1; 
  i = 0;
  while (p < a + 10) *p++ = i++ * i;
  if (a[9] != 9 * 10 && a[9] != 81) abort ();
  i = 5; i = i-- - --i; 
  { char buf[3]; char *q = buf; *q++ = 'a'; *q++ = 'b'; *q = 0; if (q - buf != 2) abort (); }
  { int n = 0; do { if (n == 3) break; if (n & 1) continue; } while (n++ < 10); if (n != 3) abort (); }
  return 0;
}
