#include <stdio.h>
#include <stdlib.h>
int main(void)
{
    int i;
    for (i = 0; i < 4; i++) printf("%d ", rand());
    srand(42);
    for (i = 0; i < 4; i++) printf("%d ", rand() % 100);
    printf("\n");
    return 0;
}
/* writes
1804289383 846930886 1681692777 1714636915 66 40 81 41 
status 0 */
