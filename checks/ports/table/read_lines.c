#define _GNU_SOURCE
#include <stdio.h>
#include <stdlib.h>
#include <string.h>
int main(void)
{
    char *line = NULL; size_t size = 0; int n, total = 0;
    while ((n = getline(&line, &size, stdin)) != -1) { if (n && line[n - 1] == '\n') line[n - 1] = 0; total += n; printf("%d:%s\n", n, line); }
    free(line);
    fprintf(stderr, "left out\n");
    return total & 255;
}
/* reads
one

a line of more than a hundred and twenty bytes, so that what holds it has to grow: 0123456789 0123456789 0123456789 0123456789 0123456789
*/
/* writes
4:one
1:
138:a line of more than a hundred and twenty bytes, so that what holds it has to grow: 0123456789 0123456789 0123456789 0123456789 0123456789
status 143 */
