#include <stdio.h>
enum color { RED, GREEN = 5, BLUE, LAST = BLUE * 2 };
enum { LOW = -3, NEXT };
enum color mix(enum color a, enum color b) { return a > b ? a : b; }
int main(void)
{
    enum color c = mix(RED, GREEN);
    enum sign { MINUS = -1, ZERO, PLUS } s = MINUS;
    printf("%d %d %d %d %d %d %d\n", RED, c, BLUE, LAST, LOW, NEXT, s < 0);
    switch (c) { case RED: return 1; case GREEN: return 3; default: return 2; }
}
/* writes
0 5 6 12 -3 -2 1
status 3 */
