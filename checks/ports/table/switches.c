#include <stdio.h>
int fall(int n) { int r = 0; switch (n) { case 0: r++; case 1: r += 10; break; default: r += 100; case 7: r += 1000; break; case 3: case 4: r += 5; } return r; }
int again(int n) { int i, r = 0; for (i = 0; i < n; i++) { switch (i & 3) { case 0: continue; case 1: r += 1; break; case 2: if (i > 5) break; r += 10; default: r += 100; } r += 1000; } return r; }
int deep(int n) { switch (n) { case 1: { int k; for (k = 0; k < 5; k++) if (k == 3) break; return k; } case 2: switch (n + 1) { case 3: n = 40; break; case 4: n = 50; } break; case 'a': n = 60; break; } return n; }
int first(int n) { switch (n) { default: return 9; case 5: return 5; } }
int none(int n) { switch (n) { int x; case 1: x = 3; return x; case 2: x = 4; return x + 1; } return 0; }
unsigned u(unsigned n) { switch (n) { case 4294967295u: return 1; case 0x80000000: return 2; } return 3; }
int wide(long long n) { switch (n) { case 1LL << 40: return 1; case -1: return 2; } return 3; }
int only(int n) { switch (n) { case 1: n = 5; } switch (n) ; switch (n) { } switch (n) case 5: n++; return n; }
int main(void)
{
    int i;
    for (i = -1; i < 9; i++) printf("%d ", fall(i));
    printf("\n%d %d %d %d %d\n", again(13), deep(1), deep(2), deep('a'), deep(9));
    printf("%d %d %d %d %d\n", first(5), first(6), none(1), none(2), none(3));
    printf("%u %u %u %d %d %d %d\n", u(-1), u(1u << 31), u(7), wide(1099511627776LL), wide(-1), wide(0), only(1));
    return 0;
}
/* writes
1100 11 10 1100 5 5 1100 1100 1000 1100 
9413 3 40 60 9
5 9 3 5 0
1 2 3 1 2 3 6
status 0 */
