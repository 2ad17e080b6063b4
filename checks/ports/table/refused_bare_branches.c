#include <stdio.h>
#include <stdlib.h>
int choose(int n)
{
    if (n > 2)
        fork();
    else
        n++;
    if (n > 3)
        n--;
    else
        vfork();
    while (n > 4)
        if (n > 5)
            fork();
        else
            n = 0;
    return n;
}
int main(void)
{
    if (choose(1))
        for (;;)
            if (choose(2))
                setjmp(0);
    else
        puts("never");
    return 0;
}
/* refused 6 `fork` */
/* refused 12 `vfork` */
/* refused 15 fork */
/* refused 25 setjmp */
