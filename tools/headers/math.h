/* The library of cbi-port: what there is of <math.h>: what is exact, or rounded as IEEE 754 has it. */
#ifndef CBI_MATH
#define CBI_MATH
double fabs(double);
double trunc(double);
double floor(double);
double ceil(double);
double round(double);
double rint(double);
double nearbyint(double);
double sqrt(double);
double copysign(double, double);
double fmin(double, double);
double fmax(double, double);
double fdim(double, double);
double fmod(double, double);
long lround(double);
long long llround(double);
long lrint(double);
long long llrint(double);
double ldexp(double, int);
double scalbn(double, int);
double scalbln(double, long);
double frexp(double, int *);
double modf(double, double *);
double nan(const char *);
float fabsf(float);
float truncf(float);
float floorf(float);
float ceilf(float);
float roundf(float);
float rintf(float);
float nearbyintf(float);
float sqrtf(float);
float copysignf(float, float);
float fminf(float, float);
float fmaxf(float, float);
float fdimf(float, float);
float fmodf(float, float);
long lroundf(float);
long long llroundf(float);
long lrintf(float);
long long llrintf(float);
float ldexpf(float, int);
float scalbnf(float, int);
float scalblnf(float, long);
float frexpf(float, int *);
float modff(float, float *);
float nanf(const char *);
long double fabsl(long double);
long double truncl(long double);
long double floorl(long double);
long double ceill(long double);
long double roundl(long double);
long double rintl(long double);
long double nearbyintl(long double);
long double sqrtl(long double);
long double copysignl(long double, long double);
long double fminl(long double, long double);
long double fmaxl(long double, long double);
long double fdiml(long double, long double);
long double fmodl(long double, long double);
long lroundl(long double);
long long llroundl(long double);
long lrintl(long double);
long long llrintl(long double);
long double ldexpl(long double, int);
long double scalbnl(long double, int);
long double scalblnl(long double, long);
long double frexpl(long double, int *);
long double modfl(long double, long double *);
long double nanl(const char *);
double sin(double);
double cos(double);
double tan(double);
double asin(double);
double acos(double);
double atan(double);
double sinh(double);
double cosh(double);
double tanh(double);
double asinh(double);
double acosh(double);
double atanh(double);
double exp(double);
double exp2(double);
double expm1(double);
double log(double);
double log10(double);
double log2(double);
double log1p(double);
double cbrt(double);
double erf(double);
double erfc(double);
double tgamma(double);
double lgamma(double);
double pow(double, double);
double atan2(double, double);
double hypot(double, double);
float sinf(float);
float cosf(float);
float tanf(float);
float asinf(float);
float acosf(float);
float atanf(float);
float sinhf(float);
float coshf(float);
float tanhf(float);
float asinhf(float);
float acoshf(float);
float atanhf(float);
float expf(float);
float exp2f(float);
float expm1f(float);
float logf(float);
float log10f(float);
float log2f(float);
float log1pf(float);
float cbrtf(float);
float erff(float);
float erfcf(float);
float tgammaf(float);
float lgammaf(float);
float powf(float, float);
float atan2f(float, float);
float hypotf(float, float);
long double sinl(long double);
long double cosl(long double);
long double tanl(long double);
long double asinl(long double);
long double acosl(long double);
long double atanl(long double);
long double sinhl(long double);
long double coshl(long double);
long double tanhl(long double);
long double asinhl(long double);
long double acoshl(long double);
long double atanhl(long double);
long double expl(long double);
long double exp2l(long double);
long double expm1l(long double);
long double logl(long double);
long double log10l(long double);
long double log2l(long double);
long double log1pl(long double);
long double cbrtl(long double);
long double erfl(long double);
long double erfcl(long double);
long double tgammal(long double);
long double lgammal(long double);
long double powl(long double, long double);
long double atan2l(long double, long double);
long double hypotl(long double, long double);
double exp10(double);
double logb(double);
int ilogb(double);
double nextafter(double, double);
double remainder(double, double);
void sincos(double, double *, double *);
float exp10f(float);
float logbf(float);
int ilogbf(float);
float nextafterf(float, float);
float remainderf(float, float);
void sincosf(float, float *, float *);
long double exp10l(long double);
long double logbl(long double);
int ilogbl(long double);
long double nextafterl(long double, long double);
long double remainderl(long double, long double);
void sincosl(long double, long double *, long double *);
#define FP_ILOGB0 (-2147483647 - 1)
#define FP_ILOGBNAN (-2147483647 - 1)
#define MATH_ERRNO 1
#define MATH_ERREXCEPT 2
#define math_errhandling MATH_ERRNO
int signbit(double);
int isnan(double);
int isinf(double);
int isfinite(double);
int isnanf(float);
int isnanl(long double);
int isinff(float);
int isinfl(long double);
int finite(double);
int finitef(float);
int finitel(long double);
int isnormal(double);
int fpclassify(double);
int isunordered(double, double);
int isless(double, double);
int islessequal(double, double);
int isgreater(double, double);
int isgreaterequal(double, double);
int islessgreater(double, double);
double __cbi_inf(void);
double __cbi_quiet(void);
#define HUGE_VAL (__cbi_inf())
#define HUGE_VALF ((float)__cbi_inf())
#define HUGE_VALL ((long double)__cbi_inf())
#define INFINITY ((float)__cbi_inf())
#define NAN ((float)__cbi_quiet())
#define FP_NAN 0
#define FP_INFINITE 1
#define FP_ZERO 2
#define FP_SUBNORMAL 3
#define FP_NORMAL 4
typedef float float_t;
typedef double double_t;
#define M_1_PI 0.31830988618379067154
#define M_2_PI 0.63661977236758134308
#define M_2_SQRTPI 1.12837916709551257390
#define M_E 2.7182818284590452354
#define M_LN10 2.30258509299404568402
#define M_LN2 0.69314718055994530942
#define M_LOG10E 0.43429448190325182765
#define M_LOG2E 1.4426950408889634074
#define M_PI 3.14159265358979323846
#define M_PI_2 1.57079632679489661923
#define M_PI_4 0.78539816339744830962
#define M_SQRT1_2 0.70710678118654752440
#define M_SQRT2 1.41421356237309504880
#endif
