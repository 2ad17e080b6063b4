#include <stdio.h>
int calls;
int *place(void) { static int n; calls++; return &n; }
int f(void)
{
    int x = 1;
    ({
        __label__ again;
    again:
        x++;
        if (x != 4)
            goto again;
    });
    (void)({ if (x == 4) x = 10; x; });
    return x;
}
int main(void)
{
    int c = 0, d = 0;
    asm("" : "+r"(*place()));
    asm volatile("" : : "r"(c++) : "memory");
    d ? (void)0 : (printf("void "), (void)place());
    c ? (void)(d = 2) : (void)0;
    for ((void)place(); d; (void)d--)
        ;
    printf("%d %d %d %d\n", f(), calls, c, d);
    return 0;
}
/* writes
void 10 3 1 0
status 0 */
