#include <stdio.h>
#include <stdlib.h>
#include <string.h>
/* Two pointers are told from each other by what `%p` writes, where memory is bytes: pointers are numbers there. */
union both { int n; char bytes[4]; };
int main(void)
{
    union both u;
    char one[40], other[40], again[40];
    int *p = malloc(sizeof *p), *q = malloc(sizeof *q);
    void *back = NULL;
    u.n = 258;
    snprintf(one, sizeof one, "%p", (void *)p); snprintf(other, sizeof other, "%p", (void *)q); snprintf(again, sizeof again, "%p", (void *)p);
    printf("%d %d %.2s\n", strcmp(one, other) != 0, strcmp(one, again), one);
    sscanf(one, "%p", &back);
    printf("%d %d %p|%8p|\n", back == p, u.bytes[0] * 10 + u.bytes[1], NULL, NULL);
    free(p); free(q);
    return 0;
}
/* memory bytes */
/* writes
1 0 0x
1 21 (nil)|   (nil)|
status 0 */
