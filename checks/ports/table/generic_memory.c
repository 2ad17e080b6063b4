#include <stdlib.h>
#include <string.h>
struct vec { void *data; int size, count; };
static void push(struct vec *v, const void *e) { v->data = realloc(v->data, (v->count + 1) * v->size); memcpy((char *)v->data + v->count++ * v->size, e, v->size); }
static void *at(struct vec *v, int i) { return (char *)v->data + i * v->size; }
static void swap(void *a, void *b, size_t n) { unsigned char *p = a, *q = b, t; while (n--) { t = *p; *p++ = *q; *q++ = t; } }
static char pool[256]; static size_t used;
static void *take(size_t n) { void *p = pool + used; used += (n + 7) & ~7u; return p; }
int main(void)
{
    struct vec v = { 0, sizeof(long long), 0 };
    long long i;
    int a = 5, b = -6, *p, *q;
    for (i = 0; i < 10; i++) push(&v, &i);
    if (*(long long *)at(&v, 7) != 7) abort();
    swap(&a, &b, sizeof a); if (a != -6 || b != 5) abort();
    p = take(3 * sizeof *p); q = take(sizeof *q); p[2] = 9; *q = 8; if (p[2] != 9 || (char *)q - (char *)p != 16) abort();
    { unsigned u = 0x11223344; unsigned char *c = (unsigned char *)&u; if (c[0] != 0x44 || c[3] != 0x11) abort(); memcpy(&a, c, 4); if (a != 0x11223344) abort(); }
    { short s[2] = { 1, 2 }; int n; memcpy(&n, s, sizeof n); if (n != 0x20001) abort(); }
    { struct { char c; int n; } x, y; memset(&x, 0xff, sizeof x); if (x.n != -1 || x.c != -1) abort(); memset(&y, 0, sizeof y); x.c = 0; x.n = 0; if (memcmp(&x.n, &y.n, 4)) abort(); }
    return 0;
}
