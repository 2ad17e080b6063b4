double fabs(double x) { return __cbi_of_bits(__cbi_bits(x) & 0x7fffffffffffffffULL); }
double copysign(double x, double y) { return __cbi_of_bits(__cbi_bits(x) & 0x7fffffffffffffffULL | __cbi_bits(y) & 0x8000000000000000ULL); }
int signbit(double x) { return (int)(__cbi_bits(x) >> 63); }
int isnan(double x) { return __cbi_double_is_nan(__cbi_bits(x)); }
int isinf(double x) { unsigned long long a = __cbi_bits(x); if (!__cbi_double_is_infinite(a)) return 0; return a >> 63 ? -1 : 1; }
int isfinite(double x) { return (__cbi_bits(x) >> 52 & 2047) != 2047; }
int isnanf(float x) { return isnan(x); }
int isnanl(long double x) { return isnan(x); }
int isinff(float x) { return isinf(x); }
int isinfl(long double x) { return isinf(x); }
int finite(double x) { return isfinite(x); }
int finitef(float x) { return isfinite(x); }
int finitel(long double x) { return isfinite(x); }
double __cbi_inf(void) { return __cbi_of_bits(0x7ff0000000000000ULL); }
double __cbi_quiet(void) { return __cbi_of_bits(0x7ff8000000000000ULL); }
double trunc(double x) { unsigned long long a = __cbi_bits(x); int e = (int)(a >> 52 & 2047) - 1023; if (e < 0) return __cbi_of_bits(a & 0x8000000000000000ULL); if (e >= 52) return x; return __cbi_of_bits(a >> (52 - e) << (52 - e)); }
double floor(double x) { double t = trunc(x); return t > x ? t - 1 : t; }
double ceil(double x) { double t = trunc(x); if (t < x) { t = t + 1; } return t == 0 ? copysign(t, x) : t; }
double round(double x) { double t = trunc(x); if (fabs(x - t) >= 0.5) t = t + copysign(1, x); return t == 0 ? copysign(t, x) : t; }
double rint(double x) { double big = copysign(4503599627370496.0, x); double r; if (fabs(x) >= 4503599627370496.0 || x != x) return x; r = x + big - big; return r == 0 ? copysign(r, x) : r; }
double nearbyint(double x) { return rint(x); }
long lround(double x) { return (long)round(x); }
long long llround(double x) { return (long long)round(x); }
long lrint(double x) { return (long)rint(x); }
double fmin(double x, double y) { if (x != x) return y; if (y != y) return x; return x < y ? x : y; }
double fmax(double x, double y) { if (x != x) return y; if (y != y) return x; return x > y ? x : y; }
double fdim(double x, double y) { return x > y ? x - y : x != x || y != y ? x + y : 0; }
double sqrt(double x) { unsigned long long a = __cbi_bits(x); unsigned long long m; unsigned long long root = 0; unsigned long long left = 0; int e; int n; if (x != x) return x + x; if (x == 0) return x; if (a >> 63) return __cbi_of_bits(0xfff8000000000000ULL); if (__cbi_double_is_infinite(a)) return x; e = __cbi_double_exponent(a); m = __cbi_double_mantissa(a); while (!(m >> 52)) { m = m << 1; e--; } if (e & 1) { m = m << 1; e--; } for (n = 54; n > -58; n -= 2) { left = left << 2; if (n >= 0) left = left | m >> n & 3; root = root << 1; if (left > root << 1) { left = left - (root << 1) - 1; root++; } } return __cbi_of_bits(__cbi_double_pack(0, e / 2 - 29, root << 1 | (left != 0))); }
double fmod(double x, double y) { unsigned long long a = __cbi_bits(x) & 0x7fffffffffffffffULL; unsigned long long b = __cbi_bits(y) & 0x7fffffffffffffffULL; unsigned long long m; unsigned long long d; int e; int f; if (x != x || y != y) return x + y; if (b == 0 || a >> 52 == 2047) return __cbi_of_bits(0xfff8000000000000ULL); if (a < b) return x; e = __cbi_double_exponent(a); f = __cbi_double_exponent(b); m = __cbi_double_mantissa(a); d = __cbi_double_mantissa(b); m = m % d; while (e > f) { m = m << 1; e--; if (m >= d) m = m - d; } return __cbi_of_bits(__cbi_double_pack(signbit(x), f, m)); }
double ldexp(double x, int n) { unsigned long long a = __cbi_bits(x); if (!__cbi_double_is(a) || (a >> 52 & 2047) == 2047) return x; if (n > 5000) n = 5000; if (n < -5000) n = -5000; return __cbi_of_bits(__cbi_double_pack((unsigned)(a >> 63), __cbi_double_exponent(a) + n, __cbi_double_mantissa(a))); }
double scalbn(double x, int n) { return ldexp(x, n); }
double frexp(double x, int *n) { unsigned long long a = __cbi_bits(x); unsigned long long m; int e; *n = 0; if (!__cbi_double_is(a) || (a >> 52 & 2047) == 2047) return x; e = __cbi_double_exponent(a); m = __cbi_double_mantissa(a); while (!(m >> 52)) { m = m << 1; e--; } *n = e + 53; return __cbi_of_bits(__cbi_double_pack((unsigned)(a >> 63), -53, m)); }
double modf(double x, double *whole) { double t = trunc(x); *whole = t; if (x - x != 0) return x != x ? x : copysign(0, x); return copysign(x - t, x); }
double nan(const char *tag) { return __cbi_quiet(); }
int isnormal(double x) { int e = (int)(__cbi_bits(x) >> 52 & 2047); return e != 0 && e != 2047; }
int isunordered(double x, double y) { return x != x || y != y; }
int isless(double x, double y) { return x < y; }
int islessequal(double x, double y) { return x <= y; }
int isgreater(double x, double y) { return x > y; }
int isgreaterequal(double x, double y) { return x >= y; }
int islessgreater(double x, double y) { return x < y || x > y; }
long long llrint(double x) { return (long long)rint(x); }
double scalbln(double x, long n) { return ldexp(x, n > 5000 ? 5000 : n < -5000 ? -5000 : n); }
int fpclassify(double x) { unsigned long long a = __cbi_bits(x); int e = (int)(a >> 52 & 2047); if (e == 2047) return __cbi_double_is_nan(a) ? 0 : 1; if (e) return 4; return __cbi_double_is(a) ? 3 : 2; }
float fabsf(float x) { return (float)fabs(x); }
float truncf(float x) { return (float)trunc(x); }
float floorf(float x) { return (float)floor(x); }
float ceilf(float x) { return (float)ceil(x); }
float roundf(float x) { return (float)round(x); }
float rintf(float x) { return (float)rint(x); }
float nearbyintf(float x) { return (float)nearbyint(x); }
float sqrtf(float x) { return (float)sqrt(x); }
float copysignf(float x, float y) { return (float)copysign(x, y); }
float fminf(float x, float y) { return (float)fmin(x, y); }
float fmaxf(float x, float y) { return (float)fmax(x, y); }
float fdimf(float x, float y) { return (float)fdim(x, y); }
float fmodf(float x, float y) { return (float)fmod(x, y); }
long lroundf(float x) { return lround(x); }
long long llroundf(float x) { return llround(x); }
long lrintf(float x) { return lrint(x); }
long long llrintf(float x) { return llrint(x); }
float ldexpf(float x, int n) { return (float)ldexp(x, n); }
float scalbnf(float x, int n) { return (float)scalbn(x, n); }
float scalblnf(float x, long n) { return (float)scalbln(x, n); }
float frexpf(float x, int *n) { return (float)frexp(x, n); }
float modff(float x, float *whole) { double t; double rest = modf(x, &t); *whole = (float)t; return (float)rest; }
float nanf(const char *tag) { return (float)__cbi_quiet(); }
long double fabsl(long double x) { return (long double)fabs(x); }
long double truncl(long double x) { return (long double)trunc(x); }
long double floorl(long double x) { return (long double)floor(x); }
long double ceill(long double x) { return (long double)ceil(x); }
long double roundl(long double x) { return (long double)round(x); }
long double rintl(long double x) { return (long double)rint(x); }
long double nearbyintl(long double x) { return (long double)nearbyint(x); }
long double sqrtl(long double x) { return (long double)sqrt(x); }
long double copysignl(long double x, long double y) { return (long double)copysign(x, y); }
long double fminl(long double x, long double y) { return (long double)fmin(x, y); }
long double fmaxl(long double x, long double y) { return (long double)fmax(x, y); }
long double fdiml(long double x, long double y) { return (long double)fdim(x, y); }
long double fmodl(long double x, long double y) { return (long double)fmod(x, y); }
long lroundl(long double x) { return lround(x); }
long long llroundl(long double x) { return llround(x); }
long lrintl(long double x) { return lrint(x); }
long long llrintl(long double x) { return llrint(x); }
long double ldexpl(long double x, int n) { return (long double)ldexp(x, n); }
long double scalbnl(long double x, int n) { return (long double)scalbn(x, n); }
long double scalblnl(long double x, long n) { return (long double)scalbln(x, n); }
long double frexpl(long double x, int *n) { return (long double)frexp(x, n); }
long double modfl(long double x, long double *whole) { double t; double rest = modf(x, &t); *whole = (long double)t; return (long double)rest; }
long double nanl(const char *tag) { return (long double)__cbi_quiet(); }
double nextafter(double x, double y) { unsigned long long a = __cbi_bits(x); if (x != x || y != y) return x + y; if (x == y) return y; if (x == 0) return copysign(__cbi_of_bits(1), y); return __cbi_of_bits((x < y) == (x > 0) ? a + 1 : a - 1); }
float nextafterf(float x, float y) { double d = x; unsigned long long a = __cbi_bits(d); int grows = (x < y) == (x > 0); if (x != x || y != y) return x + y; if (x == y) return y; if (x == 0) return copysignf(1.401298464324817e-45f, y); if (isinf(d)) return copysignf(3.4028234663852886e38f, x); d = fabs(d); if (d < 1.1754943508222875e-38 || d == 1.1754943508222875e-38 && !grows) return (float)(x < y ? x + 1.401298464324817e-45 : x - 1.401298464324817e-45); return (float)__cbi_of_bits(grows ? a + 0x20000000ULL : a - 0x20000000ULL); }
long double nextafterl(long double x, long double y) { return (long double)nextafter((double)x, (double)y); }
double remainder(double x, double y) { double a; double b = fabs(y); if (x != x || y != y) return x + y; if (isinf(x) || b == 0) return __cbi_of_bits(0xfff8000000000000ULL); if (isinf(b)) return x; a = fabs(x); if (b < 8e307) a = fmod(a, b + b); if (b < 1e-300) { if (a + a > b) { a = a - b; if (a + a >= b) a = a - b; } } else if (a > 0.5 * b) { a = a - b; if (a >= 0.5 * b) a = a - b; } return copysign(1, x) * a; }
float remainderf(float x, float y) { return (float)remainder(x, y); }
long double remainderl(long double x, long double y) { return (long double)remainder((double)x, (double)y); }
