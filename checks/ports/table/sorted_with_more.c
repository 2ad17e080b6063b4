#define _GNU_SOURCE
#include <stdio.h>
#include <stdlib.h>
#include <string.h>
struct pair { int key; const char *name; };
static int turned(const void *a, const void *b, void *sign)
{
    return *(const int *)sign * (*(const int *)a - *(const int *)b);
}
static int by_name(const void *a, const void *b, void *count)
{
    ++*(int *)count;
    return strcmp(((const struct pair *)a)->name, ((const struct pair *)b)->name);
}
static int plain(const void *a, const void *b) { return *(const int *)a - *(const int *)b; }
int main(void)
{
    int numbers[] = { 3, 1, 4, 1, 5, 9, 2, 6 }, sign = -1, count = 0, n;
    struct pair pairs[] = { { 1, "pear" }, { 2, "fig" }, { 3, "apple" }, { 4, "fig" } };
    const char *text = "one two one";
    qsort_r(numbers, 8, sizeof *numbers, turned, &sign);
    for (n = 0; n < 8; n++) printf("%d ", numbers[n]);
    qsort(numbers, 8, sizeof(int), plain);
    for (n = 0; n < 8; n++) printf("%d ", numbers[n]);
    qsort_r(pairs, 4, sizeof pairs[0], by_name, &count);
    for (n = 0; n < 4; n++) printf("%d%s ", pairs[n].key, pairs[n].name);
    printf("%d\n", count > 3);
    printf("%d %d ", (int)((const char *)memrchr(text, 'o', strlen(text)) - text), memrchr(text, 'x', 11) == NULL);
    printf("%d %d\n", (int)((const char *)memmem(text, 11, "two", 3) - text), (int)(strcasestr(text, "TWO") - text));
    return 0;
}
/* writes
9 6 5 4 3 2 1 1 1 1 2 3 4 5 6 9 3apple 2fig 4fig 1pear 1
8 1 4 4
status 0 */
