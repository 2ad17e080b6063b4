#include <stdio.h>
double half(double x) { return x / 2; }
long long dbl(long long x) { return x * 2; }
float third(float x) { return x / 4; }
unsigned inc(unsigned x) { return x + 1; }
double mix(int a, double b, long long c, float d) { return a + b + c + d; }
typedef double (*fd)(double); typedef long long (*fl)(long long); typedef float (*ff)(float); typedef unsigned (*fu)(unsigned);
int main(void)
{
    fl l = dbl; fd d = half; ff f = third; fu u = inc; double (*m)(int, double, long long, float) = mix; fd t[2] = { half, 0 };
    printf("%lld %g %g %u %g %g\n", l(21), d(3), f(3), u(4), m(1, 2.5, 3, 4.25f), t[0](9));
    return 0;
}
/* writes
42 1.5 0.75 5 10.75 4.5
status 0 */
