#include <setjmp.h>
#include <stdio.h>
#include <stdlib.h>
static jmp_buf back;
static int by_number(const void *a, const void *b)
{
    if (*(const int *)a < 0)
        longjmp(back, 1);
    return *(const int *)a - *(const int *)b;
}
int main(void)
{
    int n[3] = { 3, 1, 2 }, again = getchar();
    if (again && setjmp(back) != 0)
        return 1;
    qsort(n, 3, sizeof *n, by_number);
    printf("%d\n", n[0]);
    return 0;
}
/* refused 14 `setjmp` within an expression */
/* refused 16 `qsort` where a function that is called by a pointer may be left by `longjmp` */
