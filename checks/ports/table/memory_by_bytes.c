#include <stdio.h>
#include <stdlib.h>
int main(void)
{
    void *room = malloc(8);
    int *number = room;
    if (room == NULL)
        return 2;
    number[0] = 67305985;
    number[1] = 513;
    printf("%d %d %d\n", *(char *)room, ((char *)room)[2], ((char *)room)[5]);
    free(room);
    return 0;
}
/* memory bytes */
/* writes
1 3 2
status 0 */
