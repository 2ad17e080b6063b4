#include <stdio.h>
#include <stdlib.h>
#include <string.h>
/* GNU C's cleanup: at each way out of a scope, the last variable first; the value of a return is found out before. */
static void number(int *n) { printf("n%d ", *n); *n = -1; }
static void word(char **s) { printf("%s ", *s); free(*s); *s = NULL; }
#define HELD(f) __attribute__((cleanup(f)))
static char *made(const char *s) { char *t = malloc(strlen(s) + 1); return strcpy(t, s); }
static int value(int n)
{
    HELD(number) int a = n, b = n + 1;
    char *s HELD(word) = made("s");
    if (n > 5)
        return a + b;
    if (n == 5)
        return 0;
    b = 20;
    return b += (int)strlen(s);
}
static void loops(int n)
{
    for (int i = 0; i < n; i++) {
        int a HELD(number) = i;
        if (i == 1)
            continue;
        while (1) {
            int HELD(number) c = 10 * i;
            if (c > 10)
                break;
            switch (c) {
            case 0: {
                HELD(number) int d = 7;
                if (d)
                    break;
            }
            default:
                puts("never");
            }
            break;
        }
        if (i == 3)
            return;
    }
    puts("never");
}
static int jumps(void)
{
    int count = 0;
again:;
    HELD(number) int a = ++count;
    {
        HELD(number) int b = 100;
        if (count < 3)
            goto again;
        if (count == 3)
            goto end;
        b = 0;
    }
end:
    return count;
}
static int within(int n)
{
    HELD(number) int a = n;
    int b = ({ if (n == 1) return 30; n + 1; });
    ({ HELD(number) int c = b; c = c + 1; });
    return b;
}
static struct { int a, b; } pair;
/* gcc passes over it where it says nothing of a variable of a block. */
struct __attribute__((cleanup(number))) of_type { int a; };
static int outside HELD(number) = 5;
static int stays(void) { static int kept HELD(number) = 6; struct of_type a = { 7 }; return kept + outside + a.a; }
static __typeof__(pair) *of_pair(void) { HELD(number) int a = 8; pair.a = 1; return &pair; }
static void hides(void) { HELD(number) int a = 1; { HELD(number) int a = 2; a++; } if (a) { int a = 5; printf("a%d ", a); } }
int main(void)
{
    printf("%d\n", value(1));
    printf("%d\n", value(5));
    printf("%d\n", value(6));
    loops(9);
    printf("\n%d\n", jumps());
    printf("%d\n", within(1));
    printf("%d\n", within(2));
    printf("%d\n", of_pair()->a);
    printf("%d\n", stays());
    hides();
    puts("");
    HELD(number) int last = 99;
    return 4;
}
/* writes
s n21 n1 21
s n6 n5 0
s n7 n6 13
n7 n0 n0 n1 n20 n2 n30 n3 n100 n1 n100 n2 n100 n3 
3
n1 30
n4 n2 3
n8 1
18
n3 a5 n1 
n99 status 4 */
