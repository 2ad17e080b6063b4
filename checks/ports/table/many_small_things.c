int printf(const char *, ...);
struct S { int a, b; } s; struct S *p = &s; int v[3], *q = v;
static int z(int x) { return x ? z(x - 1) + 1 : 0; }
int f(int a, int b, int c, int d, int e, int g) { return a + 2 * b + 3 * c + 4 * d + 5 * e + 6 * g; }
void swap(int *a, int *b) { *a ^= *b; *b ^= *a; *a ^= *b; }
int main() { int i, j = 0, k = 10; unsigned u = 0xdeadbeef; char c = 'x'; int a[2][2] = { 1, 2, 3, 4 };
 p->a = 3; (*p).b = 4; swap(&p->a, &p->b); printf("%d %d\n", s.a, s.b);
 for (i = 0; i < 3; i++) *(q + i) = i[v] = i * i; printf("%d %d\n", v[2], *(v + 1));
 for (;;) { if (j++ >= k) break; if (j % 2) continue; k--; } printf("%d %d\n", j, k);
 printf("%x %x %x %d\n", u >> 16, u & 0xff, ~u, (char)u); printf("%d %d\n", c + 1, sizeof c + 1 == 2);
 printf("%d %d\n", f(1, 2, 3, 4, 5, 6), z(100)); i = 5; i += i++ * 0; printf("%d\n", a[1][0] + a[0][1]);
 { int x = 0; x = x ? 1 : x == 0 ? 2 : 3; printf("%d\n", x); } goto end; printf("no\n"); end: printf("%s\n", "end" + 1); return 0; }
/* writes
4 3
4 1
8 7
dead ef 21524110 -17
121 1
91 100
5
2
nd
status 0 */
