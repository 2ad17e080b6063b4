#include <stdio.h>
/* Statements within an expression that is a statement, where a ?:, && or || says whether they come. */
#define LOG(level, ...) ((level) > 1 ? ({ for (int i = 0; i < (level); i++) printf(__VA_ARGS__); }) : (void)0)
#define UNLESS(test, what) ((test) || ({ if (count > 90) what; 1; }))
static int count;
static int first(int n)
{
    (void)(n > 2 ? ({ while (n > 2) { if (n == 7) return 70; n--; count++; } n; }) : ({ if (n == 0) return -1; 5; }));
    n == 2 && ({ do count += 10; while (count < 25); count; });
    UNLESS(n == 1, return 99);
    LOG(n, "[%d]", count);
    return n;
}
int main(void)
{
    for (int i = 0; i < 5; i++)
        printf("%d ", first(i));
    printf("%d %d\n", first(7), count);
    return 0;
}
/* writes
-1 1 [30][30]2 [41][41]2 [53][53]2 70 53
status 0 */
