#include <math.h>
#include <stdio.h>
double power(double a, double b) { return j0(a) + fabs(b); }
int main(void)
{
    double a[3] = { 1, 2, 3 };
    int n = 7 % 2;
    switch (n) { case 1: n = 3; }
    printf("%f\n", power(a[n], y0(1.0)));
    return 0;
}
/* refused 3 `j0`
refused 9 `y0`
 */
