/* The functions of C99 7.12.8: by their tables and identities, and at their ends. */
#include <errno.h>
#include <math.h>
#include <stdio.h>
static void told(const char *name, double v) { printf("%s %.11g %d\n", name, v, errno); errno = 0; }
int main(void)
{
    static const double xs[] = { 0.5, -1, 1.1, 2, -3, 5 };
    unsigned n;
    for (n = 0; n < sizeof xs / sizeof *xs; n++)
        printf("%.11g %.11g %.11g\n", erf(xs[n]), erfc(xs[n]), erf(xs[n]) + erfc(xs[n]));
    told("gamma of 1/2, squared", tgamma(0.5) * tgamma(0.5));
    told("gamma of 6", tgamma(6));
    told("gamma of -3/2", tgamma(-1.5));
    told("gamma of 30", tgamma(30));
    told("lgamma of 1/2", lgamma(0.5));
    told("lgamma of 100", lgamma(100));
    told("lgamma of 3.5", lgamma(3.5));
    told("lgamma of -1/2", lgamma(-0.5));
    told("gamma of 172", tgamma(172));
    told("gamma of 0", tgamma(0));
    told("lgamma of -1", lgamma(-1));
    told("erf of infinity", erf(HUGE_VAL));
    told("erfc of 30", erfc(30));
    printf("%.6g %.6g\n", erff(0.25f), tgammaf(4.5f));
    return isnan(tgamma(-1)) ? errno == EDOM : 2;
}
/* writes
0.52049987781 0.47950012219 1
-0.84270079295 1.8427007929 1
0.88020506957 0.11979493043 1
0.99532226502 0.004677734981 1
-0.9999779095 1.9999779095 1
1 1.5374597944e-12 1
gamma of 1/2, squared 3.1415926536 0
gamma of 6 120 0
gamma of -3/2 2.3632718012 0
gamma of 30 8.8417619937e+30 0
lgamma of 1/2 0.57236494292 0
lgamma of 100 359.13420537 0
lgamma of 3.5 1.2009736023 0
lgamma of -1/2 1.2655121235 0
gamma of 172 inf 34
gamma of 0 inf 34
lgamma of -1 inf 34
erf of infinity 1 0
erfc of 30 0 34
0.276326 11.6317
status 1 */
