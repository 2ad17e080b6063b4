#include <stdlib.h>
static int out_of_loops(int n) { int i, j, s = 0; for (i = 0; i < n; i++) for (j = 0; j < n; j++) { if (i * j == 12) goto found; s++; } return -1; found: return s * 100 + i * 10 + j; }
static int back(int n) { int s = 0; again: if (n > 0) { s += n--; goto again; } return s; }
static int into(int n) { int s = 0; if (n & 1) goto odd; s = 100; while (n > 0) { s++; odd: s += 10; n -= 2; } return s; }
static int skip(int n) { goto test; body: n += 3; test: if (n < 10) goto body; { int n = 5; if (n == 5) goto end; n = 6; } end: return n; }
static int retry(int n) { int tries = 0; int got; do { got = n * tries; if (got > 20) goto done; switch (tries) { case 3: tries = 5; continue; case 7: goto done; } tries++; } while (tries < 9); done: return got * 10 + tries; }
static int clean(int n) { int r = -1; char *a = malloc(4), *b = 0; if (n == 0) goto fail; b = malloc(4); if (n == 1) goto fail; r = 0; fail: free(a); if (b) free(b); return r; }
static int duff(const char *from, int n) { char b[40], *to = b; int k = (n + 3) / 4, s = 0; switch (n & 3) { case 0: do { *to++ = *from++; case 3: *to++ = *from++; case 2: *to++ = *from++; case 1: *to++ = *from++; } while (--k > 0); } while (to > b) s = s * 7 + *--to; return s & 0xffff; }
int main(void)
{
    if (out_of_loops(6) != 2234) abort();
    if (back(5) != 15 || into(3) != 21 || into(4) != 122 || skip(0) != 12 || clean(0) != -1 || clean(1) != -1 || clean(2)) abort();
    if (duff("abcdefg", 7) != duff("abcdefg", 7) || retry(4) != 246) abort();
    return 0;
}
