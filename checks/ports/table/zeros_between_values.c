#include <stdio.h>
union u { unsigned w; unsigned char b[4]; };
char first[5] = "abcd";
static unsigned zeros[60000];
union u last[3] = { { 7 }, { 0 }, { 0x80000001u } };
static int few[12] = { 1, 0, 0, 0, 0, 0, 0, 0, 0, 0, 2 };
static int twice[2][3] = { { 1, 2, 3 }, { 4, 4, 4 }, [0] = { 5 }, [1][1] = 6, [0][2] = 8, [1] = { 7 } };
int main(void) {
    unsigned n, sum = 0;
    for (n = 0; n < 60000; n++) sum += zeros[n] != 0;
    for (n = 0; n < 12; n++) sum = 3 * sum + few[n];
    printf("%s %u\n", first, sum);
    printf("%d %d %u %u\n", last[0].b[0], last[2].b[3], last[1].w, last[2].w);
    for (n = 0; n < 6; n++) printf("%d ", twice[n / 3][n % 3]);
    return 0;
}
/* memory bytes */
/* writes
abcd 177153
7 128 0 2147483649
5 0 8 7 0 0 status 0 */
