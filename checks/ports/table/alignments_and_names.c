#include <stdio.h>
#include <string.h>
#include <stdlib.h>
typedef n;
typedef struct { int i; } __attribute__((packed)) pk;
typedef int al __attribute__((aligned(16)));
typedef struct { char c; } wide __attribute__((aligned(8)));
struct s { char a; al b; wide w; };
int \u00e9t\u00e9 = 3;
al ga; static char pad; al gb;
n two = 2;
int main(void)
{
    void *(*f)(void *, const void *, size_t) = memcpy;
    void *(*g)(void *, int, size_t) = memset;
    void (*h)(void *) = free;
    void *(*m)(size_t) = malloc;
    char b[8], *p = m(4);
    struct s s __attribute__((aligned(64)));
    al x; wide y;
    g(b, 'x', 3); f(b + 3, "yz", 3); p[0] = 1; h(p);
    été++;
    printf("%s %d %d %s %d\n", b, été, two, __func__, (int)sizeof __func__);
    printf("%d %d %d %d\n", (int)sizeof(struct s), (int)__alignof__(struct s), (int)__alignof__(al), (int)sizeof(wide));
    printf("%d %d %d %d %d\n", (int)((unsigned)&s % 64), (int)((unsigned)&x % 16), (int)((unsigned)&gb % 16), (int)((unsigned)&y % 8), (int)((unsigned)&s.b % 16));
    return 0;
}
/* writes
xxxyz 4 2 main 5
32 16 16 1
0 0 0 0 0
status 0 */
