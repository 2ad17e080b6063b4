#include <stdio.h>
struct row { int id; short size; };
static void swap(void *left, void *right, unsigned count)
{
    char *one = left, *other = right;
    while (count-- > 0) {
        char kept = *one;
        *one++ = *other;
        *other++ = kept;
    }
}
static void reverse(int *row, int count)
{
    for (int i = 0; i < count / 2; i++)
        swap(&row[i], row + count - 1 - i, sizeof *row);
}
int main(void)
{
    struct row first = { 1000, 2 }, second = { 3, 4 };
    int row[5] = { 300, 70000, -1, 5, 16777216 };
    swap(&first, &second, sizeof first);
    reverse(row, 5);
    printf("%d %d %d %d\n", first.id, first.size, second.id, second.size);
    for (int i = 0; i < 5; i++)
        printf("%d\n", row[i]);
    return 0;
}
/* memory bytes */
/* writes
3 4 1000 2
16777216
5
-1
70000
300
status 0 */
