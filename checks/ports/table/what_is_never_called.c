#include <stdio.h>
extern void nowhere(void);
extern int nothing_of(int);
extern void abort(void);
typedef void (*ends)(void);
ends table[] = { abort };
int count(int n) { if (0) nowhere(); return 1 ? n : nothing_of(n); }
none() { }
int handed_on(int n) { if (n) return none(); return 4; }
void jumps(int n)
{
    switch (n) {
    case 0:
        if (0) {
            nowhere();
    case 1:
            printf("in\n");
        }
    }
}
int main(void)
{
    ends f = table[0];
    handed_on(1);
    jumps(1);
    jumps(0);
    printf("%d %d %d\n", count(3), handed_on(0), f == abort);
    return 0 && nothing_of(2);
}
/* writes
in
3 4 1
status 0 */
