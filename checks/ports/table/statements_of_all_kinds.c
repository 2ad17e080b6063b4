#include <stdio.h>
int main(void)
{
    int i, j = 0;
    for (;;) { if (++j > 3) break; if (j == 2) continue; printf("%d ", j); }
    while (j-- > 0) if (j == 1) { printf("one "); } else if (j == 2) printf("two "); else ;
    do printf("do "); while (0);
    do { i = j; j--; if (j == -3) continue; } while (j > -5);
    for (int k = 0, n = 3; k < n; k++, n--) printf("%d%d ", k, n);
    for (i = 0; i < 3; i++) for (j = 0; j < 3; j++) { if (j == 1) continue; if (i == 1) break; printf("<%d%d>", i, j); }
    { int i = 9; { int i = 8; printf("%d", i); } printf("%d", i); }
    if (i) if (j) printf(" a"); else printf(" b");
    ;
    {}
    int late = 4; late++;
    printf(" %d\n", late);
    if (late == 5) return 4; else return 5;
}
/* writes
1 3 two one do 03 12 <00><02><20><22>89 a 5
status 4 */
