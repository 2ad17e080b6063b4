#include <stdlib.h>
#define N 8
int board[N], count;
int ok (int r, int c) { int i; for (i = 0; i < r; i++) if (board[i] == c || abs (board[i] - c) == r - i) return 0; return 1; }
void solve (int r) { int c; if (r == 6) { count++; return; } for (c = 0; c < 6; c++) if (ok (r, c)) { board[r] = c; solve (r + 1); } }
int sieve (int n) { char *s = calloc (n + 1, 1); int i, j, k = 0; for (i = 2; i <= n; i++) { if (s[i]) continue; k++; for (j = 2 * i; j <= n; j += i) s[j] = 1; } free (s); return k; }
int bits (unsigned x) { int n = 0; for (; x; x &= x - 1) n++; return n; }
int search (const int *a, int n, int k) { int l = 0, h = n - 1; while (l <= h) { int m = (l + h) >> 1; if (a[m] == k) return m; else if (a[m] < k) l = m + 1; else h = m - 1; } return -1; }
int main (void) { static const int s[] = { 1, 3, 5, 7, 9, 11 }; solve (0); if (count != 4 || sieve (100) != 25 || bits (0xf0f0) != 8 || search (s, 6, 7) != 3 || search (s, 6, 4) != -1) abort (); return 0; }
