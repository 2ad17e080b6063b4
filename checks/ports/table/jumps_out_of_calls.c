/* `setjmp` and `longjmp` in the places where C99 7.13.1.1 lets them stand: what a jump leaves does nothing more. */
#include <setjmp.h>
#include <stdio.h>
#include <stdlib.h>
struct part { char text[8]; int n; };
static jmp_buf top, inner;
static int depth, trace[40], traced;
static int note(int n) { if (traced < 40) trace[traced++] = n; return n; }
static void fail(int how) { note(100 + how); longjmp(top, how); }
static int checked(int n)
{
    depth++;
    if (n < 0)
        fail(-n);
    if (n == 99)
        longjmp(inner, 0);
    depth--;
    return n + 1;
}
static long long wide(int n) { return checked(n) * 10000000000ll; }
static double half(int n) { return checked(n) / 2.0; }
static struct part made(int n) { struct part p = { "part", 0 }; p.n = checked(n); return p; }
static char *text(int n) { static char t[2]; t[0] = (char)('a' + checked(n)); return t; }
static int sum(int a, int b, int c) { return note(a) + note(b) + note(c); }
static int (*by_pointer)(int) = checked;
static int loops(int n)
{
    int i, total = 0;
    for (i = checked(0); i < checked(3); i = checked(i)) {
        if (i == 2)
            continue;
        total += i;
    }
    do {
        total += 100;
    } while (checked(total) < 250);
    while (checked(total) > n && total > 0) {
        total -= 50;
        if (total == 200)
            break;
    }
    return total;
}
static int tried(int n)
{
    int a = 1, b = 2;
    struct part p;
    a = note(a) + checked(n) + note(7);
    b = n > 5 && checked(10 - n) > 0 || checked(20 - n) == 0;
    b += note(4) * checked(n + 1) - note(5);
    a += n % 2 ? checked(n - 8) : (note(3), checked(n));
    p = made(n - 12);
    printf("%d %d %d %s %s %.1f %lld\n", a, b, p.n, p.text, text(n - 13), half(n - 14), wide(n - 15));
    switch (checked(n - 16)) {
    case 1:
        return by_pointer(n - 17);
    default:
        return sum(n, checked(-(n - 20)), checked(n)) + loops(n);
    }
}
static int caught(int n)
{
    int how, done = 0;
    depth = 0;
    traced = 0;
    how = setjmp(top);
    if (how != 0) {
        printf("caught %d at depth %d:", how, depth);
        for (done = 0; done < traced; done++)
            printf(" %d", trace[done]);
        puts("");
        return -1;
    }
    done = tried(n);
    printf("done %d\n", done);
    return done;
}
static void nested(void)
{
    volatile int rounds = 0;
    jmp_buf kept;
    if (!setjmp(kept)) {
        switch (setjmp(inner)) {
        case 0:
            checked(99);
            puts("never");
            break;
        case 1:
            while (++rounds < 3)
                if (rounds == 2)
                    longjmp(kept, 5);
            break;
        default:
            puts("never");
        }
    } else
        printf("back in %d rounds\n", rounds);
    for (rounds = 0; rounds < 4; rounds++) {
        if (setjmp(inner) == 0) {
            if (rounds % 2)
                checked(99);
            printf("round %d\n", rounds);
        } else
            printf("round %d was left\n", rounds);
    }
}
int main(void)
{
    int n;
    for (n = -3; n < 24; n += 1)
        caught(n);
    nested();
    if (setjmp(top) == 0)
        exit(checked(7));
    return 1;
}
/* writes
caught 3 at depth 1: 1 103
caught 2 at depth 1: 1 102
caught 1 at depth 1: 1 101
caught 12 at depth 1: 1 7 4 5 3 112
caught 7 at depth 1: 1 7 4 5 107
caught 10 at depth 1: 1 7 4 5 3 110
caught 5 at depth 1: 1 7 4 5 105
caught 8 at depth 1: 1 7 4 5 3 108
caught 3 at depth 1: 1 7 4 5 103
caught 6 at depth 1: 1 7 4 5 3 106
caught 1 at depth 1: 1 7 4 5 101
caught 4 at depth 1: 1 7 4 5 3 104
caught 3 at depth 1: 1 7 4 5 103
caught 2 at depth 1: 1 7 4 5 3 102
caught 1 at depth 1: 1 7 101
caught 2 at depth 1: 1 7 102
caught 3 at depth 1: 1 7 103
caught 4 at depth 1: 1 7 104
caught 5 at depth 1: 1 7 105
caught 6 at depth 1: 1 7 106
caught 7 at depth 1: 1 7 107
caught 8 at depth 1: 1 7 108
caught 9 at depth 1: 1 7 109
caught 10 at depth 1: 1 7 110
caught 11 at depth 1: 1 7 111
caught 12 at depth 1: 1 7 112
caught 13 at depth 1: 1 7 113
back in 2 rounds
round 0
round 1 was left
round 2
round 3 was left
status 8 */
