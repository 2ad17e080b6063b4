#include <stdio.h>
#include <stdlib.h>
#include <string.h>
struct item { int n; char *name; struct item *next; };
static int made;
static void die(const char *why) { puts(why); exit(3); }
void *xmalloc(size_t n)
{
    void *p;
    made++;
    p = (void *) malloc(n);
    if (p == NULL)
        die("no memory");
    return p;
}
void *xcalloc(size_t n, size_t size) { void *p; if (!(p = calloc(n, size))) die("none"); return (p); }
static void *retried(size_t n)
{
    void *p;
    while ((p = malloc(n)) == 0)
        if (++made > 3)
            return 0;
    return p ? p : NULL;
}
void *xrealloc(void *old, size_t n)
{
    void *p;
    if (!old)
        return xmalloc(n);
    p = realloc((char *) old, n);
    if (!p)
        die("no more");
    return p;
}
void xfree(void *p) { free((char *) p); }
char *copy_of(const char *s) { return strcpy(xmalloc(strlen(s) + 1), s); }
int main(void)
{
    struct item *all = NULL, *it;
    int *row = xcalloc(5, sizeof *row), i;
    char **names = xmalloc(2 * sizeof(char *));
    double *d = (double *) retried(3 * sizeof(double));
    long long *wide = xmalloc(sizeof(long long) * 2);
    short (*pairs)[2] = xmalloc(4 * sizeof *pairs);
    char *text = xrealloc(NULL, 3);
    for (i = 0; i < 3; i++) {
        it = xmalloc(sizeof *it);
        it->n = i * 10 + row[i];
        it->name = copy_of(i ? "more" : "first");
        it->next = all;
        all = it;
        d[i] = i / 2.0;
    }
    row = xrealloc(row, 9 * sizeof(int));
    row[8] = 7;
    names = (char **) xrealloc((void *) names, 4 * sizeof *names);
    names[3] = "last";
    wide[1] = 1LL << 40;
    pairs[3][1] = -5;
    strcpy(text, "ab");
    text = xrealloc(text, 30);
    strcat(text, "cdefgh");
    for (it = all; it; it = it->next)
        printf("%d %s\n", it->n, it->name);
    printf("%d %s %.1f %lld %d %s %d\n", row[8] + row[4], names[3], d[1] + d[2], wide[1], pairs[3][1], text, made);
    xfree(row);
    xfree((void *) names);
    free(all);
    return 0;
}
/* memory cells */
/* writes
20 more
10 more
0 first
7 last 1.5 1099511627776 -5 abcdefgh 10
status 0 */
