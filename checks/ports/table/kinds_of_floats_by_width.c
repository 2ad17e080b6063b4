#include <math.h>
#include <stdio.h>
/* What glibc and gcc ask each width of floats for by a function of its own. */
int main(void)
{
    float f = 1e38f;
    double d = 3;
    long double l = 2;
    f *= 100;
    printf("%d %d %d %d\n", !!isinff(f), !!__builtin_isinff(-f), !!isinfl(l), !!__builtin_isinfl(-f / l));
    printf("%d %d %d %d\n", !!isnanf(f - f), !!isnanl(l), !!__builtin_isnanf(f), !!__builtin_isnanl(f - f));
    printf("%d %d %d %d\n", !!finite(d), !!finitef(f), !!finitel(l), !!__builtin_finite(d / 0.0));
    return isinff(d) || finitef(1) != 1;
}
/* writes
1 1 0 1
1 0 0 1
1 0 1 0
status 0 */
