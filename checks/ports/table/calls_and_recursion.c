#include <stdio.h>
static int fib(int n) { return n < 2 ? n : fib(n - 1) + fib(n - 2); }
static int is_odd(int n);
static int is_even(int n) { return n == 0 || is_odd(n - 1); }
static int is_odd(int n) { return n != 0 && is_even(n - 1); }
static void hanoi(int n, char a, char b, char c, int *moves) { if (n == 0) return; hanoi(n - 1, a, c, b, moves); ++*moves; hanoi(n - 1, c, b, a, moves); }
static unsigned ack(unsigned m, unsigned n) { if (!m) return n + 1; if (!n) return ack(m - 1, 1); return ack(m - 1, ack(m, n - 1)); }
static int gcd(int a, int b) { while (b) { int t = a % b; a = b; b = t; } return a; }
static unsigned char byte(int n) { return n; }
static short half(int n) { return n; }
static char letter(int n) { return n; }
static const char *name(int n) { return n == 1 ? "one" : n == 2 ? "two" : "many"; }
int main(void)
{
    int moves = 0;
    hanoi(6, 'a', 'b', 'c', &moves);
    printf("%d %d %d %d %u %d\n", fib(15), is_even(40), is_odd(7), moves, ack(2, 3), gcd(84, 36));
    printf("%d %d %d %s\n", byte(300) + byte(-1), half(40000), letter(200), name(2));
    return main == 0;
}
/* writes
610 1 1 63 9 12
299 -25536 -56 two
status 0 */
