#include <stdio.h>
/* GNU C's alias: another name of a function or a variable of the same file. */
static int count = 3, row[3] = { 1, 2, 3 };
extern int number __attribute__((alias("count")));
extern int same[3] __attribute__((alias("row")));
static int first(int n) { number += n; return count; }
int second(int) __attribute__((weak, alias("first")));
static __typeof__(first) third __attribute__((alias("first")));
int main(void)
{
    int (*by)(int) = second;
    same[1] = 20;
    { int number = 7; count += number; }
    printf("%d\n", second(1));
    printf("%d\n", third(2));
    printf("%d %d\n", row[1], number);
    printf("%d %d\n", by(4), &same[2] == &row[2]);
    return by == first;
}
/* writes
11
13
20 13
17 1
status 1 */
