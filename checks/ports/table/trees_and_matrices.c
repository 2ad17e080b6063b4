#include <stdlib.h>
#include <string.h>
struct node { struct node *l, *r; int k; };
struct node *ins (struct node *t, int k) { if (!t) { t = (struct node *) calloc (1, sizeof (struct node)); t->k = k; } else if (k < t->k) t->l = ins (t->l, k); else t->r = ins (t->r, k); return t; }
int walk (struct node *t, int *out, int n) { if (!t) return n; n = walk (t->l, out, n); out[n++] = t->k; return walk (t->r, out, n); }
typedef int matrix[3][3];
void mul (matrix r, matrix a, matrix b) { int i, j, k; for (i = 0; i < 3; i++) for (j = 0; j < 3; j++) for (r[i][j] = k = 0; k < 3; k++) r[i][j] += a[i][k] * b[k][j]; }
char *rev (char *s) { int i = 0, j = strlen (s) - 1; while (i < j) { char t = s[i]; s[i++] = s[j]; s[j--] = t; } return s; }
int main (void)
{
  static int keys[] = { 5, 2, 8, 1, 9, 3 }; int out[6], i; struct node *t = 0;
  matrix a = { { 1, 2, 3 }, { 4, 5, 6 }, { 7, 8, 9 } }, id = { { 1 }, { 0, 1 }, { [2] = 1 } }, r;
  char b[] = "reverse";
  for (i = 0; i < 6; i++) t = ins (t, keys[i]);
  if (walk (t, out, 0) != 6 || out[0] != 1 || out[5] != 9) abort ();
  mul (r, a, id); if (memcmp (r, a, sizeof a)) abort ();
  if (strcmp (rev (b), "esrever")) abort ();
  return 0;
}
