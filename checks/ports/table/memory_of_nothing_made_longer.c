#include <stdio.h>
#include <stdlib.h>
struct row { int key; long long sum; };
int main(void)
{
    int count = 0, k;
    int *list = realloc(NULL, 0), *other = malloc(count * sizeof *other);
    struct row *rows = NULL, *none = calloc(count, sizeof *none);
    rows = realloc(rows, count * sizeof *rows);
    if (!list || !other || !rows || !none) {
        puts("no memory");
        return 1;
    }
    for (k = 0; k < 5; k++) {
        list = realloc(list, (k + 1) * sizeof *list);
        rows = realloc(rows, (k + 1) * sizeof *rows);
        list[k] = rows[k].key = k * k;
    }
    other = realloc(other, 2 * sizeof *other);
    other[1] = 7;
    printf("%d %d %d\n", list[4], rows[2].key, other[1]);
    printf("%d\n", realloc(other, 0) == NULL);
    free(list), free(rows), free(none);
    return 0;
}
/* writes
16 4 7
1
status 0 */
