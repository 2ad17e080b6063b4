#include <stdio.h>
#include <stdlib.h>
#include <string.h>
struct row { char *name; int cells[3]; };
static int given(void) { int n = 0; return scanf("%d", &n) == 1 ? n : 0; }
int main(void)
{
    int n = given(), k;
    int *a = malloc(n * sizeof *a);
    struct row *rows = malloc(sizeof(struct row) * n), *more = calloc(n, sizeof *more);
    char *text = malloc(n), *line = calloc(n, 1), *copy = malloc(strlen("four") + 1);
    char *bare = malloc(0);
    int *none = calloc(0, sizeof(int));
    long long *wide = malloc((given() + n) * sizeof(long long));
    double **table = malloc((n & 7) * sizeof *table);
    if (!a || !rows || !more || !text || !line || !bare || !none || !wide || !table) {
        puts("no memory");
        return 1;
    }
    for (k = 0; k < n; k++)
        a[k] = rows[k].cells[2] = text[k] = k;
    strcpy(copy, "four");
    printf("%d %s %d\n", n, copy, bare != line && (void *)a != (void *)text);
    free(a), free(rows), free(more), free(text), free(line), free(copy), free(bare), free(none), free(wide), free(table);
    return 0;
}
/* reads
0 0 */
/* writes
0 four 1
status 0 */
