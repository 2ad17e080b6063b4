#include <errno.h>
#include <stdio.h>
#include <stdlib.h>
static const char *const texts[] = { "0x1p3", "0x1.8p-1x", "0x", "0x.", "0x.8", "-0x1.fffffffffffff8p0", "0x1.fffffffffffff7ffp0", "0x123456789abcdef123456789", "0x1p1024",
    "0x1p-1080", "0x1p-1074", "1e400", "1e-400", "1e-310", "4.9406564584124654e-324", "0x.00000000000000000000001p100", "0x1p", "0x1p+", "inf", "INFINITY", "nan", "-nan",
    "infin", "0X1P-2000000000" };
int main(void)
{
    char *end, rest[9] = "none";
    double d = -1;
    float f = -1;
    int k, n;
    for (k = 0; k < (int)(sizeof texts / sizeof *texts); k++) {
        errno = 0;
        d = strtod(texts[k], &end);
        printf("%s: %a %d %d ", texts[k], d, (int)(end - texts[k]), errno == ERANGE);
        errno = 0;
        f = strtof(texts[k], &end);
        printf("%a %d %d\n", f, (int)(end - texts[k]), errno == ERANGE);
    }
    n = sscanf("0x1.8p1 1e 12", "%f %lf", &f, &d);
    printf("%d %a %a\n", n, f, d);
    n = sscanf("inf infinity", "%f %le", &f, &d);
    printf("%d %a %a\n", n, f, d);
    n = sscanf("nax", "%f%1s", &f, rest);
    printf("%d\n", n);
    n = sscanf("infix", "%a%s", &f, rest);
    printf("%d %a %s\n", n, f, rest);
    n = sscanf("-.5e-1z", "%4f%s", &f, rest);
    printf("%d %a %s\n", n, f, rest);
    n = sscanf("0x", "%f", &f) + sscanf("+", "%f", &f) + sscanf("-x", "%f", &f);
    printf("%d\n", n);
    return 0;
}
/* writes
0x1p3: 0x1p+3 5 0 0x1p+3 5 0
0x1.8p-1x: 0x1.8p-1 8 0 0x1.8p-1 8 0
0x: 0x0p+0 1 0 0x0p+0 1 0
0x.: 0x0p+0 1 0 0x0p+0 1 0
0x.8: 0x1p-1 4 0 0x1p-1 4 0
-0x1.fffffffffffff8p0: -0x1p+1 21 0 -0x1p+1 21 0
0x1.fffffffffffff7ffp0: 0x1.fffffffffffffp+0 22 0 0x1p+1 22 0
0x123456789abcdef123456789: 0x1.23456789abcdfp+92 26 0 0x1.234568p+92 26 0
0x1p1024: inf 8 1 inf 8 1
0x1p-1080: 0x0p+0 9 1 0x0p+0 9 1
0x1p-1074: 0x0.0000000000001p-1022 9 0 0x0p+0 9 1
1e400: inf 5 1 inf 5 1
1e-400: 0x0p+0 6 1 0x0p+0 6 1
1e-310: 0x0.012688b70e62bp-1022 6 1 0x0p+0 6 1
4.9406564584124654e-324: 0x0.0000000000001p-1022 23 1 0x0p+0 23 1
0x.00000000000000000000001p100: 0x1p+8 30 0 0x1p+8 30 0
0x1p: 0x1p+0 3 0 0x1p+0 3 0
0x1p+: 0x1p+0 3 0 0x1p+0 3 0
inf: inf 3 0 inf 3 0
INFINITY: inf 8 0 inf 8 0
nan: nan 3 0 nan 3 0
-nan: -nan 4 0 -nan 4 0
infin: inf 3 0 inf 3 0
0X1P-2000000000: 0x0p+0 15 1 0x0p+0 15 1
2 0x1.8p+1 0x1p+0
2 inf inf
0
0 inf none
2 -0x1p-1 -1z
0
status 0 */
