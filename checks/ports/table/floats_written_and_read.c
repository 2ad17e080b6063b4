#include <stdio.h>
#include <stdlib.h>
#include <math.h>
#include <float.h>
double pow2(int);
double avg(const double *a, int n) { double s = 0; for (int i = 0; i < n; i++) s += a[i]; return n ? s / n : 0; }
int main(void)
{
    double a[] = { 1.5, 2.25, -3.125, 1e10, 0.1 }; float f = 3.14159f; int i; char *end; double x; float y; char w[20];
    printf("%f %.2f %10.3f|%-10.1f|%+.0f %05.1f\n", avg(a, 5), a[1], a[2], a[0], 2.5, -1.25);
    printf("%e %.3E %g %g %g %G %#g\n", a[3], 0.000123456, 100000.0, 1000000.0, 0.0001, 1e-5, 1.0);
    printf("%g %g %g %.10g %f\n", f, 1.0 / 3, 2.0 / 3 * 1e20, 0.1, f);
    printf("%.20f %.0f %.0f %.0f %.15g\n", 0.1, 0.5, 1.5, 2.5, 0.1 + 0.2);
    printf("%f %f %f %e %e\n", 1.0 / 0.0, -1.0 / 0.0, 0.0, DBL_MAX, DBL_MIN);
    printf("%.3f %.1f %f\n", 1e15 + 0.3, 123456789.95, 5e-324);
    printf("%d %u %lld %d\n", (int)1e9, (unsigned)3e9, (long long)-1e18, (char)65.7);
    x = strtod("  -12.5e2xyz", &end); printf("%g %s ", x, end); printf("%g %.17g %g %d\n", atof("3.25"), strtod("0.1", 0), strtod("1e400", 0), (int)(strtod("abc", &end) == 0));
    i = sscanf("3.5 2.25e1 7 word", "%lf %f %d %s", &x, &y, &i, w); printf("%d %g %g %s\n", i, x, y, w);
    printf("%g %g %g %g %g\n", sqrt(2), floor(-1.5), ceil(1.2), fabs(-3.5), fmod(10.5, 3));
    printf("%g %g %g %d %d\n", round(2.5), trunc(-2.7), ldexp(0.5, 10), isnan(0.0 / 0.0) != 0, isinf(HUGE_VAL) != 0);
    printf("%d %d %d\n", 0.1 + 0.2 == 0.3, 0.1f + 0.2f == 0.3f, (float)0.1 == 0.1);
    for (i = 0; i < 3; i++) printf("%.3g ", pow2(i)); printf("\n");
    return (int)(f * 10);
}
double pow2(int n) { return n ? 2 * pow2(n - 1) : 1; }
/* writes
2000000000.145000 2.25     -3.125|1.5       |+2 -01.2
1.000000e+10 1.235E-04 100000 1e+06 0.0001 1E-05 1.00000
3.14159 0.333333 6.66667e+19 0.1 3.141590
0.10000000000000000555 0 2 2 0.3
inf -inf 0.000000 1.797693e+308 2.225074e-308
1000000000000000.250 123456790.0 0.000000
1000000000 3000000000 -1000000000000000000 65
-1250 xyz 3.25 0.10000000000000001 inf 1
4 3.5 22.5 word
1.41421 -2 2 3.5 1.5
3 -2 512 1 1
0 1 0
1 2 4 
status 31 */
/* How each line follows. A double has 53 bits and a float 24; what falls between two of them becomes the nearer one, and of two that are as near the even one. What is
   printed is the exact value, rounded in the same way to the digits that are asked for.
1. The sums are 1.5, 3.75, 0.625, 10000000000.625, and that and 0.1. From 2^33 on doubles are 2^-19 apart: 0.725 * 2^19 = 380108.8, so 380109. A fifth of
   10000000000 + 380109 / 2^19 is 2000000000 + 608174.4 / 2^22, and doubles are 2^-22 apart there: 2000000000 + 608174 / 2^22 = 2000000000.14499998.., six digits
   of which are 145000. 2.25, -3.125, 1.5, 2.5 and -1.25 are exact. 2.5 lies halfway, and 2 is even; 1.25 does too, and 1.2 is even.
2. 1e10 is exact, since 5^10 is below 2^53. The doubles of 0.000123456, 0.0001 and 0.00001 are off by less than 10^-15 of these, which changes no digit here; 1.23456
   becomes 1.235. %g takes the form of %f where the exponent is from -4 to 5, so for 100000 and 0.0001 and not for 1000000 and 0.00001; it leaves zeros at the end
   out, unless # is said.
3. 3.14159 * 2^22 = 13176783.50336, so the float is 13176784 / 2^22 = 3.14159011.. A third is 0.33333333.. and the product 6.66666666..e19, up to 10^-15 of them. Ten
   digits of 0.1 (as in 4) are 1 and zeros.
4. 0.1 * 2^55 = 3602879701896396.8, so 0.1 is 3602879701896397 / 2^55 = 0.1000000000000000055511.. 0.5, 1.5 and 2.5 lie halfway: 0, 2 and 2 are even. 0.2 is twice
   0.1, and the sum 10808639105689191 / 2^55 lies halfway between two doubles: the even one is 5404319552844596 / 2^54 = 0.3000000000000000444..
5. A number other than 0 over 0 is infinite, with its sign. The greatest double is (2^53 - 1) * 2^971 = 1.79769313..e308, the least normal one 2^-1022 =
   2.22507385..e-308.
6. From 2^49 on doubles are 1/8 apart: 0.3 becomes 2/8. From 2^26 on they are 2^-26 apart: 0.95 * 2^26 = 63753420.8, so it is 123456789.95000000298.., which is
   nearer to 123456790.0 than to 123456789.9. 5e-324 is 2^-1074.
7. 1e9, 3e9 and 1e18 = 2^18 * 5^18 are exact; what lies behind the point goes.
8. -1250 and 3.25 are exact; 17 digits of 0.1 are 0.10000000000000001. 1e400 is beyond the greatest double, so it is infinite; where no number stands strtod gives 0.
9. 3.5 and 22.5 are exact. Four things were read, and 4 is assigned to i after 7 was stored there.
10. 1.414205^2 < 2 < 1.414215^2; fmod takes 9 of 10.5.
11. round goes away from 0 where it is halfway, trunc goes towards 0; 0.5 * 2^10 = 512. 0 over 0 is no number, and HUGE_VAL is infinite.
12. 0.3 * 2^54 = 5404319552844595.2, so 0.3 is 5404319552844595 / 2^54, another one than the sum in 4. As floats 0.1 and 0.2 are 13421773 / 2^27 and twice that. Their
    sum is 10066329.75 / 2^25, which becomes 10066330 / 2^25, and so does 0.3, since 0.3 * 2^25 = 10066329.6. The float 13421773 / 2^27 = 0.10000000149.. is another
    number than the double 0.1.
13. 1, 2 and 4 are exact. The status: 10 times the float of 3 is 31.41590118.., of which 31 stands before the point. */
