#include <stdlib.h>
#include <string.h>
struct item { int n; char name[6]; struct item *next; };
static int by_n(const void *a, const void *b) { const struct item *x = a, *y = b; return x->n - y->n; }
static int by_text(const void *a, const void *b) { return strcmp(*(char *const *)a, *(char *const *)b); }
static int by_int(const void *a, const void *b) { int x = *(int *)a, y = *(int *)b; return (x > y) - (x < y); }
int main(void)
{
    struct item *a = calloc(4, sizeof *a), *b, key = { 3 }, copy;
    int i, k[5] = { 5, 3, 9, 1, 7 }, want = 7, *found, m[2][3];
    char *w[] = { "pear", "apple", "fig" };
    for (i = 0; i < 4; i++) { if (a[i].n || a[i].next || a[i].name[5]) abort(); a[i].n = 7 - 2 * i; strcpy(a[i].name, i & 1 ? "odd" : "even"); }
    qsort(a, 4, sizeof(struct item), by_n);
    if (a[0].n != 1 || strcmp(a[0].name, "odd") || a[3].n != 7) abort();
    b = bsearch(&key, a, 4, sizeof *a, by_n); if (b != a + 1) abort();
    qsort(w, 3, sizeof w[0], by_text); if (strcmp(w[0], "apple") || strcmp(w[2], "pear")) abort();
    qsort(k, 5, sizeof(int), by_int); found = bsearch(&want, k, 5, sizeof(int), by_int); if (*found != 7 || found - k != 3) abort();
    a = realloc(a, 8 * sizeof(struct item)); if (a[3].n != 7) abort();
    memcpy(&copy, &a[2], sizeof copy); if (copy.n != 5) abort();
    memset(a, 0, 2 * sizeof *a); if (a[1].n || a[2].n != 5) abort();
    memmove(a, a + 2, 2 * sizeof(struct item)); if (a[0].n != 5 || a[1].n != 7) abort();
    memset(m, 0, sizeof m); m[1][2] = 4; if (m[0][0] || m[1][2] != 4) abort();
    { int x[3] = { 1, 2, 3 }, y[3]; memcpy(y, x, sizeof(x)); if (y[2] != 3) abort(); }
    { void *v = malloc(10 * sizeof(int)); int *p = v; p[9] = 4; if (((int *)v)[9] != 4) abort(); free(v); }
    { char *s = NULL; int n = 0, room = 0; for (i = 0; i < 100; i++) { if (n == room) { room = room ? 2 * room : 4; s = realloc(s, room); } s[n++] = i; } if (s[99] != 99) abort(); free(s); }
    free(a); free(NULL);
    return 0;
}
