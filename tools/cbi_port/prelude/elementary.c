// Elementary functions (C99 7.12.4 to 7.12.7), within one unit in the last place. Where a double is too short, a value is the sum of two:
// a function gives the high one and leaves the low one in `__cbi_math.low`. Polynomials are interpolated at the points of Chebyshev.
#include <errno.h>
#include <math.h>
struct __cbi_math_state { double high; double low; };
struct __cbi_math_state __cbi_math;
double __cbi_invalid(void) { errno = EDOM; return __cbi_of_bits(0xfff8000000000000ULL); }
double __cbi_too_great(double sign) { errno = ERANGE; return copysign(__cbi_inf(), sign); }
double __cbi_too_small(double sign) { errno = ERANGE; return copysign(0, sign); }
double __cbi_upper(double x) { return __cbi_of_bits(__cbi_bits(x) & 0xfffffffff8000000ULL); }
// What a product lost by rounding.
double __cbi_lost(double a, double b, double product) {
    double c = __cbi_upper(a); double d = __cbi_upper(b); double e = a - c; double f = b - d;
    return c * d - product + c * f + e * d + e * f;
}
double __cbi_sum(double a, double b) { double s = a + b; double t = s - a; __cbi_math.low = (a - (s - t)) + (b - t); return s; }
// Of a high part and a small low one the sum, and what is left.
double __cbi_joined(double high, double low) { double s = high + low; __cbi_math.low = low - (s - high); return s; }
double __cbi_quotient(double a, double al, double b, double bl) {
    double q = a / b; double p = q * b;
    return __cbi_joined(q, (a - p - __cbi_lost(q, b, p) + al - q * bl) / b);
}
double __cbi_root(double x, double low) {
    double s = sqrt(x); double p = s * s;
    if (s == 0) { __cbi_math.low = 0; return s; }
    return __cbi_joined(s, (x - p - __cbi_lost(s, s, p) + low) / (2 * s));
}
double __cbi_exp_tail(double r) { return r * r * (0.5 + r * (0.16666666666666666 + r * (0.04166666666666668 + r * (0.008333333333333333 + r * (0.0013888888888879004 + r * (0.00019841269841263252 + r * (2.480158733663095e-05 + r * (2.7557319247344507e-06 + r * (2.755726307730941e-07 + r * (2.5052070959803662e-08 + r * (2.091821231913398e-09 + r * (1.6086677666787362e-10)))))))))))); }
double __cbi_exp_pair(double x, double low) {
    double k = rint(x * 1.4426950408889634); double high = x - k * 0.6931471804855391; double s; double rest;
    low = low - k * 7.440617110012397e-11;
    s = 1 + high;
    rest = high - (s - 1) + (low + __cbi_exp_tail(high + low));
    high = __cbi_joined(s, rest);
    __cbi_math.low = ldexp(__cbi_math.low, (int)k);
    return ldexp(high, (int)k);
}
double exp(double x) {
    if (x != x) return x;
    if (x > 709.782712893384) return isinf(x) ? x : __cbi_too_great(1);
    if (x < -745.1332191019412) return isinf(x) ? 0 : __cbi_too_small(1);
    return __cbi_exp_pair(x, 0);
}
double exp2(double x) {
    double k = rint(x); double f = x - k; double p = f * 0.6931471805599453;
    if (x != x) return x;
    if (x >= 1024) return isinf(x) ? x : __cbi_too_great(1);
    if (x < -1075) return isinf(x) ? 0 : __cbi_too_small(1);
    return ldexp(__cbi_exp_pair(p, __cbi_lost(f, 0.6931471805599453, p) + f * 2.3190468138462996e-17), (int)k);
}
double exp10(double x) { return pow(10, x); }
double expm1(double x) {
    double r = x; double e; double low;
    if (x != x || x == 0) return x;
    if (x > -0.5 && x < 0.5) return x + r * r * (0.5 + r * (0.16666666666666666 + r * (0.041666666666666664 + r * (0.0083333333333334 + r * (0.001388888888888893 + r * (0.0001984126984105686 + r * (2.4801587301454233e-05 + r * (2.755731951602831e-06 + r * (2.7557319406457273e-07 + r * (2.50519137456348e-08 + r * (2.0876635370907816e-09 + r * (1.6121291390767837e-10 + r * (1.1509642370665761e-11)))))))))))));
    if (x < -40) return -1;
    if (x > 40) return exp(x);
    e = __cbi_exp_pair(x, 0);
    low = __cbi_math.low;
    e = __cbi_sum(e, -1);
    return e + (__cbi_math.low + low);
}
double __cbi_log_pair(double x, double low) {
    int k; double m = frexp(x, &k); double f; double d; double dl; double s; double sl; double p; double z; double zl; double w; double t; double u; double v;
    if (m < 0.7071067811865476) { m = m * 2; k--; }
    f = m - 1;
    d = __cbi_sum(m, 1);
    dl = __cbi_math.low;
    s = f / d;
    p = s * d;
    sl = (f - p - __cbi_lost(s, d, p) - s * dl) / d;
    z = s * s;
    zl = __cbi_lost(s, s, z) + 2 * s * sl;
    w = z * (0.4 + z * (0.28571428571429364 + z * (0.22222222221655885 + z * (0.18181818335392802 + z * (0.1538459496251843 + z * (0.1333480469384731 + z * (0.11706236339491206 + z * (0.11723178623876518))))))));
    t = 0.6666666666666666 + w;
    w = 0.6666666666666666 - t + w + 3.700743415417188e-17;
    u = z * t;
    w = __cbi_lost(z, t, u) + z * w + zl * t;
    v = 2 + u;
    w = 2 - v + u + w;
    u = s * v;
    w = __cbi_lost(s, v, u) + s * w + sl * v;
    u = __cbi_sum(k * 0.6931471804855391, u);
    return __cbi_joined(u, __cbi_math.low + (w + k * 7.440617110012397e-11 + low / x));
}
// Whether a number has no logarithm of its own, and then what it is.
int __cbi_no_log(double x) { return !(x > 0) || isinf(x); }
double __cbi_odd_log(double x) { if (x != x || x > 0) return x; if (x == 0) return __cbi_too_great(-1); return __cbi_invalid(); }
double log(double x) {
    int k; double m; double f; double s; double z; double half;
    if (__cbi_no_log(x)) return __cbi_odd_log(x);
    m = frexp(x, &k);
    if (m < 0.7071067811865476) { m = m * 2; k--; }
    f = m - 1;
    s = f / (2 + f);
    z = s * s;
    half = 0.5 * f * f;
    z = z * (0.6666666666666666 + z * (0.4000000000000088 + z * (0.2857142857080323 + z * (0.2222222239180047 + z * (0.18181795630884753 + z * (0.15386240205813478 + z * (0.13268759668560612 + z * (0.13086767009948175))))))));
    if (k == 0) return f - (half - s * (half + z));
    return k * 0.6931471804855391 - (half - (s * (half + z) + k * 7.440617110012397e-11) - f);
}
// A logarithm of another base: what a sum of two is times one of two.
double __cbi_times(double a, double al, double b, double bl) { double p = a * b; return p + (__cbi_lost(a, b, p) + a * bl + al * b); }
double log2(double x) {
    int k; double m;
    if (__cbi_no_log(x)) return __cbi_odd_log(x);
    m = frexp(x, &k);
    if (m < 0.7071067811865476) { m = m * 2; k--; }
    m = __cbi_log_pair(m, 0);
    x = m * 1.4426950408889634;
    m = __cbi_lost(m, 1.4426950408889634, x) + m * 2.0355273740931033e-17 + __cbi_math.low * 1.4426950408889634;
    x = __cbi_sum(k, x);
    return x + (__cbi_math.low + m);
}
double log10(double x) { double h; if (__cbi_no_log(x)) return __cbi_odd_log(x); h = __cbi_log_pair(x, 0); return __cbi_times(h, __cbi_math.low, 0.4342944819032518, 1.098319650216765e-17); }
double log1p(double x) {
    double s;
    if (x != x || x == 0 || x > 0 && isinf(x)) return x;
    if (x <= -1) return x == -1 ? __cbi_too_great(-1) : __cbi_invalid();
    if (fabs(x) < 1e-18) return x;
    s = __cbi_sum(1, x);
    return __cbi_log_pair(s, __cbi_math.low);
}
double logb(double x) { int k; if (x != x) return x; if (isinf(x)) return fabs(x); if (x == 0) return __cbi_too_great(-1); frexp(x, &k); return k - 1; }
int ilogb(double x) { int k; if (x == 0 || x != x) { errno = EDOM; return -2147483647 - 1; } if (isinf(x)) { errno = EDOM; return 2147483647; } frexp(x, &k); return k - 1; }
// 1 for an odd whole number, 2 for an even one, 0 for others.
int __cbi_evenness(double x) {
    double a = fabs(x);
    if (a >= 9007199254740992.0) return 2;
    if (trunc(a) != a) return 0;
    return trunc(a / 2) * 2 == a ? 2 : 1;
}
double __cbi_power_of_edge(double x, double y, int kind) {
    double a = fabs(x); double r;
    if (isinf(y)) { if (a == 1) return 1; return (a > 1) == (y > 0) ? __cbi_inf() : 0; }
    if (x == 0 && y < 0) errno = ERANGE;
    r = (x == 0) == (y < 0) ? __cbi_inf() : 0;
    return kind == 1 ? copysign(r, x) : r;
}
double pow(double x, double y) {
    int kind = __cbi_evenness(y); double sign = x < 0 && kind == 1 ? -1 : 1; double h; double p; double low;
    if (y == 0 || x == 1) return 1;
    if (x != x || y != y) return x + y;
    if (isinf(y) || x == 0 || isinf(x)) return __cbi_power_of_edge(x, y, kind);
    if (x < 0 && !kind) return __cbi_invalid();
    x = fabs(x);
    if (x == 1 || fabs(y) < 1e-20) return sign;
    if (fabs(y) > 1e20) return (x > 1) == (y > 0) ? __cbi_too_great(sign) : __cbi_too_small(sign);
    h = __cbi_log_pair(x, 0);
    low = __cbi_math.low;
    p = y * h;
    if (p > 710) return __cbi_too_great(sign);
    if (p < -746) return __cbi_too_small(sign);
    h = sign * __cbi_exp_pair(p, __cbi_lost(y, h, p) + y * low);
    if (h == 0 || isinf(h)) errno = ERANGE;
    return h;
}
// 2/pi in pieces of 16 bits, so many that each double finds its bits (Payne and Hanek).
int __cbi_two_by_pi(int at) {
    int pieces[74] = { 41721, 33646, 20036, 5417, 64551, 22481, 62772, 56768, 56162, 38297, 15427, 36929, 65105, 25515, 57019, 50529, 46884, 28218, 16973, 53984, 1609, 12010, 2513, 37404, 65053, 60188, 45353, 42814, 59522, 13813, 11963, 17540, 59804, 28710, 46175, 32321, 14737, 54841, 33619, 14836, 40068, 24459, 48633, 10299, 8184, 38911, 56837, 38927, 61231, 4491, 23050, 27935, 27958, 32463, 10187, 2487, 20294, 16230, 40543, 59949, 29991, 47815, 60389, 61819, 15623, 14839, 35410, 37610, 27643, 24497, 8077, 23816, 22019, 12358 };
    return at < 0 || at > 73 ? 0 : pieces[at];
}
unsigned __cbi_window(int bit) {
    int at = bit < 0 ? -((15 - bit) / 16) : bit / 16; int shift = bit - 16 * at; unsigned two = (unsigned)__cbi_two_by_pi(at) << 16 | (unsigned)__cbi_two_by_pi(at + 1);
    return two >> (16 - shift) & 65535u;
}
int __cbi_quarter_of_great(double x) {
    unsigned long long m = __cbi_double_mantissa(__cbi_bits(x)); int e = __cbi_double_exponent(__cbi_bits(x)); unsigned limb[16]; unsigned part[4]; unsigned w; unsigned sum; int n; int k; int quarter; int minus; double high; double low;
    for (n = 0; n < 16; n++) limb[n] = 0;
    for (n = 0; n < 4; n++) { part[n] = (unsigned)m & 65535u; m = m >> 16; }
    for (n = 0; n < 12; n++) {
        w = __cbi_window(e - 2 + 16 * (11 - n));
        sum = 0;
        for (k = 0; k < 4; k++) { sum = w * part[k] + limb[n + k] + (sum >> 16); limb[n + k] = sum & 65535u; }
        limb[n + 4] = sum >> 16;
    }
    quarter = (int)(limb[11] >> 14 & 3u);
    minus = (limb[11] >> 13 & 1u) != 0u;
    quarter += minus;
    limb[11] = limb[11] & 16383u;
    if (minus) {
        sum = 1;
        for (n = 0; n < 12; n++) { sum = (~limb[n] & 65535u) + sum; limb[n] = sum & 65535u; sum = sum >> 16; }
        limb[11] = limb[11] & 16383u;
    }
    n = 11;
    while (n > 5 && !limb[n]) n--;
    high = ldexp(limb[n] * 4294967296.0 + limb[n - 1] * 65536.0 + limb[n - 2], 16 * n - 222);
    low = ldexp(limb[n - 3] * 4294967296.0 + limb[n - 4] * 65536.0 + limb[n - 5], 16 * n - 270);
    high = __cbi_joined(high, low);
    low = __cbi_math.low;
    x = high * 1.5707963267948966;
    x = __cbi_joined(x, __cbi_lost(high, 1.5707963267948966, x) + high * 6.123233995736766e-17 + low * 1.5707963267948966);
    __cbi_math.high = minus ? -x : x;
    if (minus) __cbi_math.low = -__cbi_math.low;
    return quarter & 3;
}
// In which quarter of the circle an angle is, and what is left of it, from -pi/4 to pi/4.
int __cbi_quarter(double x) {
    double k; double s; double low; int quarter;
    if (fabs(x) > 1600000) {
        quarter = __cbi_quarter_of_great(fabs(x));
        if (x > 0) return quarter;
        __cbi_math.high = -__cbi_math.high;
        __cbi_math.low = -__cbi_math.low;
        return -quarter & 3;
    }
    k = rint(x * 0.6366197723675814);
    s = __cbi_sum(x - k * 1.5707963267341256, -(k * 6.077100506303966e-11));
    low = __cbi_math.low;
    s = __cbi_sum(s, -(k * 2.0222662487111665e-21));
    __cbi_math.high = __cbi_joined(s, low + __cbi_math.low - k * 8.4784276603689e-32);
    return (int)k & 3;
}
double __cbi_sine(double x, double low) { double z = x * x; return __cbi_joined(x, low - 0.5 * z * low + x * z * (-0.16666666666666666 + z * (0.008333333333333333 + z * (-0.00019841269841269839 + z * (2.7557319223981077e-06 + z * (-2.5052108382377827e-08 + z * (1.6059042777921172e-10 + z * (-7.646960948071416e-13 + z * (2.791224100841561e-15))))))))); }
double __cbi_cosine(double x, double low) {
    double z = x * x; double half = 0.5 * z; double w = 1 - half;
    return __cbi_joined(w, 1 - w - half + (z * z * (0.041666666666666664 + z * (-0.0013888888888888887 + z * (2.4801587301584632e-05 + z * (-2.755731922139249e-07 + z * (2.0876755787492604e-09 + z * (-1.1470460319209511e-11 + z * (4.745838412531023e-14))))))) - 0.5 * __cbi_lost(x, x, z) - x * low));
}
double sin(double x) {
    int quarter; double y;
    if (x != x || fabs(x) < 1e-8) return x;
    if (isinf(x)) return __cbi_invalid();
    quarter = __cbi_quarter(x);
    y = quarter & 1 ? __cbi_cosine(__cbi_math.high, __cbi_math.low) : __cbi_sine(__cbi_math.high, __cbi_math.low);
    return quarter & 2 ? -y : y;
}
double cos(double x) {
    int quarter; double y;
    if (x != x) return x;
    if (isinf(x)) return __cbi_invalid();
    quarter = __cbi_quarter(x);
    y = quarter & 1 ? __cbi_sine(__cbi_math.high, __cbi_math.low) : __cbi_cosine(__cbi_math.high, __cbi_math.low);
    return quarter == 1 || quarter == 2 ? -y : y;
}
double tan(double x) {
    int quarter; double y; double low; double s; double sl;
    if (x != x || fabs(x) < 1e-8) return x;
    if (isinf(x)) return __cbi_invalid();
    quarter = __cbi_quarter(x);
    y = __cbi_math.high;
    low = __cbi_math.low;
    s = __cbi_sine(y, low);
    sl = __cbi_math.low;
    y = __cbi_cosine(y, low);
    return quarter & 1 ? -__cbi_quotient(y, __cbi_math.low, s, sl) : __cbi_quotient(s, sl, y, __cbi_math.low);
}
void sincos(double x, double *s, double *c) { *s = sin(x); *c = cos(x); }
double __cbi_atan_pair(double x, double low) {
    double base = 0; double rest = 0; double d; double dl; double p; double z; double c = 0;
    if (x >= 0.4375 && x < 2.4375) {
        c = x < 0.6875 ? 0.5 : x < 1.1875 ? 1 : 1.5;
        base = c == 0.5 ? 0.4636476090008061 : c == 1 ? 0.7853981633974483 : 0.982793723247329;
        rest = c == 0.5 ? 2.2698777452961687e-17 : c == 1 ? 3.061616997868383e-17 : 1.3903311031230998e-17;
        p = c * x;
        d = __cbi_sum(1, p);
        dl = __cbi_math.low + __cbi_lost(c, x, p) + c * low;
        x = __cbi_quotient(x - c, low, d, dl);
        low = __cbi_math.low;
    } else if (x >= 2.4375) {
        base = 1.5707963267948966;
        rest = 6.123233995736766e-17;
        x = __cbi_quotient(-1, 0, x, low);
        low = __cbi_math.low;
    }
    z = x * x;
    rest = rest + (low - z * low + x * z * (-0.3333333333333333 + z * (0.1999999999999941 + z * (-0.14285714285566672 + z * (0.1111111109663336 + z * (-0.09090908355081977 + z * (0.07692285541401948 + z * (-0.06666241706297325 + z * (0.05876944220330461 + z * (-0.052166649790788854 + z * (0.044921989571273566 + z * (-0.03312674367384146 + z * (0.014771803541259421)))))))))))));
    x = __cbi_sum(base, x);
    return __cbi_joined(x, __cbi_math.low + rest);
}
double atan(double x) {
    if (x != x || fabs(x) < 1e-9) return x;
    if (fabs(x) > 1e18) return copysign(1.5707963267948966, x);
    return copysign(__cbi_atan_pair(fabs(x), 0), x);
}
double atan2(double y, double x) {
    double a = fabs(y); double b = fabs(x); double h; double low;
    if (x != x || y != y) return x + y;
    if (isinf(a) && isinf(b)) return copysign(x > 0 ? 0.7853981633974483 : 2.356194490192345, y);
    if (a == 0 || isinf(b) || b > a * 1e20 && x < 0) return signbit(x) ? copysign(3.141592653589793, y) : b > a && !isinf(b) && a != 0 ? copysign(a / b, y) : copysign(0, y);
    if (b == 0 || isinf(a) || a > b * 1e20) return copysign(1.5707963267948966, y);
    if (b > a * 1e20) { h = a / b; if (h == 0) errno = ERANGE; return copysign(h, y); }
    if (a > 1e200 || b > 1e200) { a = ldexp(a, -400); b = ldexp(b, -400); }
    if (a < 1e-200 || b < 1e-200) { a = ldexp(a, 400); b = ldexp(b, 400); }
    h = __cbi_quotient(a, 0, b, 0);
    h = __cbi_atan_pair(h, __cbi_math.low);
    if (!signbit(x)) return copysign(h, y);
    low = 1.2246467991473532e-16 - __cbi_math.low;
    h = __cbi_sum(3.141592653589793, -h);
    return copysign(h + (__cbi_math.low + low), y);
}
// asin(s)/s - 1, of the square.
double __cbi_asin_tail(double z) { return z * (0.16666666666666666 + z * (0.07500000000000119 + z * (0.04464285714255019 + z * (0.030381944475693704 + z * (0.022372157435623815 + z * (0.017352816768546473 + z * (0.013963775787848137 + z * (0.011566511821890942 + z * (0.00962140274734483 + z * (0.009322101501082774 + z * (0.0030350071727267623 + z * (0.019579201619744684 + z * (-0.019277545928584557 + z * (0.02963502626354855)))))))))))))); }
double asin(double x) {
    double a = fabs(x); double s; double low;
    if (x != x || a < 1e-9) return x;
    if (a > 1) return __cbi_invalid();
    if (a < 0.5) return x + x * __cbi_asin_tail(x * x);
    a = (1 - a) * 0.5;
    s = __cbi_root(a, 0);
    low = 6.123233995736766e-17 - 2 * (__cbi_math.low + s * __cbi_asin_tail(a));
    s = __cbi_sum(1.5707963267948966, -2 * s);
    return copysign(s + (__cbi_math.low + low), x);
}
double acos(double x) {
    double a = fabs(x); double s; double low;
    if (x != x) return x;
    if (a > 1) return __cbi_invalid();
    if (a < 0.5) { s = __cbi_sum(1.5707963267948966, -x); return s + (__cbi_math.low + (6.123233995736766e-17 - x * __cbi_asin_tail(x * x))); }
    a = (1 - a) * 0.5;
    s = __cbi_root(a, 0);
    low = __cbi_math.low + s * __cbi_asin_tail(a);
    if (x > 0) return 2 * (s + low);
    s = __cbi_sum(3.141592653589793, -2 * s);
    return s + (__cbi_math.low + (1.2246467991473532e-16 - 2 * low));
}
double __cbi_exp_half(double a) { double h = a - 0.6931471804855391; h = __cbi_exp_pair(h, a - h - 0.6931471804855391 - 7.440617110012397e-11); return isinf(h) ? __cbi_too_great(1) : h; }
// Half of e^a and e^-a, added where `sign` is 1 and subtracted where it is -1.
double __cbi_halves(double a, double sign) {
    double e; double low; double i;
    if (a > 22) return a > 711 ? __cbi_too_great(1) : __cbi_exp_half(a);
    e = __cbi_exp_pair(a, 0);
    low = __cbi_math.low;
    i = __cbi_quotient(sign, 0, e, low);
    low = low + __cbi_math.low;
    e = __cbi_sum(e, i);
    return 0.5 * (e + (__cbi_math.low + low));
}
double __cbi_sinh_tail(double z) { return z * (0.16666666666666666 + z * (0.008333333333333333 + z * (0.00019841269841269893 + z * (2.7557319223859257e-06 + z * (2.5052108530089686e-08 + z * (1.6058959031183615e-10 + z * (7.671812104787627e-13))))))); }
double sinh(double x) {
    double a = fabs(x);
    if (x != x || isinf(x) || a < 1e-9) return x;
    if (a < 0.5) return x + x * __cbi_sinh_tail(x * x);
    return copysign(__cbi_halves(a, -1), x);
}
double cosh(double x) { if (x != x) return x; if (isinf(x)) return fabs(x); return __cbi_halves(fabs(x), 1); }
double tanh(double x) {
    double a = fabs(x); double z = x * x; double s; double sl; double c;
    if (x != x || a < 1e-9) return x;
    if (a > 20) return copysign(1, x);
    if (a < 0.5) {
        s = __cbi_joined(x, x * __cbi_sinh_tail(z));
        sl = __cbi_math.low;
        c = __cbi_sum(1, 0.5 * z);
        c = __cbi_joined(c, __cbi_math.low + (z * z * (0.041666666666666664 + z * (0.0013888888888888905 + z * (2.480158730151042e-05 + z * (2.7557319355127727e-07 + z * (2.087665588523333e-09 + z * (1.1506661026062171e-11)))))) + 0.5 * __cbi_lost(x, x, z)));
        return __cbi_quotient(s, sl, c, __cbi_math.low);
    }
    s = __cbi_exp_pair(2 * a, 0);
    sl = __cbi_math.low;
    s = __cbi_sum(s, 1);
    s = __cbi_quotient(-2, 0, s, __cbi_math.low + sl);
    sl = __cbi_math.low;
    s = __cbi_sum(1, s);
    return copysign(s + (__cbi_math.low + sl), x);
}
// log(x + sqrt(x*x + one)).
double __cbi_area(double x, double one) {
    double p = x * x; double low = __cbi_lost(x, x, p);
    p = __cbi_sum(p, one);
    p = __cbi_root(p, __cbi_math.low + low);
    low = __cbi_math.low;
    p = __cbi_sum(p, x);
    return __cbi_log_pair(p, __cbi_math.low + low);
}
double __cbi_log_of_twice(double x) { double h = __cbi_log_pair(x, 0); double low = __cbi_math.low; h = __cbi_sum(h, 0.6931471805599453); return h + (__cbi_math.low + low + 2.3190468138462996e-17); }
double asinh(double x) {
    double a = fabs(x);
    if (x != x || isinf(x) || a < 1e-9) return x;
    if (a < 1e-4) return x - x * x * x * (0.16666666666666666 - 0.075 * x * x);
    return copysign(a > 1e10 ? __cbi_log_of_twice(a) : __cbi_area(a, 1), x);
}
double acosh(double x) {
    if (x != x) return x;
    if (x < 1) return __cbi_invalid();
    if (isinf(x)) return x;
    return x > 1e10 ? __cbi_log_of_twice(x) : __cbi_area(x, -1);
}
double atanh(double x) {
    double a = fabs(x); double n; double nl; double d;
    if (x != x || a < 1e-9) return x;
    if (a >= 1) return a == 1 ? __cbi_too_great(x) : __cbi_invalid();
    if (a < 1e-4) return x + x * x * x * (0.3333333333333333 + 0.2 * x * x);
    n = __cbi_sum(1, a);
    nl = __cbi_math.low;
    d = __cbi_sum(1, -a);
    n = __cbi_quotient(n, nl, d, __cbi_math.low);
    return copysign(0.5 * __cbi_log_pair(n, __cbi_math.low), x);
}
double cbrt(double x) {
    int k; double m = frexp(fabs(x), &k); double r; double s; double p; double low; int third;
    if (x == 0 || x != x || isinf(x)) return x;
    third = k >= 0 ? k / 3 : -((2 - k) / 3);
    m = ldexp(m, k - 3 * third);
    r = 0.6 + 0.33 * m - 0.02 * m * m;
    for (k = 0; k < 4; k++) r = (2 * r + m / (r * r)) / 3;
    s = r * r;
    low = __cbi_lost(r, r, s);
    p = s * r;
    low = __cbi_lost(s, r, p) + low * r;
    r = r + (m - p - low) / (3 * s);
    return copysign(ldexp(r, third), x);
}
double hypot(double x, double y) {
    double a = fabs(x); double b = fabs(y); double p; double q; int k; double low;
    if (isinf(a) || isinf(b)) return __cbi_inf();
    if (a != a || b != b) return a + b;
    if (a < b) { p = a; a = b; b = p; }
    if (b == 0 || b < a * 1e-20) return a;
    frexp(a, &k);
    a = ldexp(a, -k);
    b = ldexp(b, -k);
    p = a * a;
    q = b * b;
    low = __cbi_lost(a, a, p) + __cbi_lost(b, b, q);
    p = __cbi_sum(p, q);
    p = ldexp(__cbi_root(p, __cbi_math.low + low), k);
    return isinf(p) ? __cbi_too_great(1) : p;
}
float expf(float x) { return (float)exp(x); }
long double expl(long double x) { return (long double)exp((double)x); }
float exp2f(float x) { return (float)exp2(x); }
long double exp2l(long double x) { return (long double)exp2((double)x); }
float exp10f(float x) { return (float)exp10(x); }
long double exp10l(long double x) { return (long double)exp10((double)x); }
float expm1f(float x) { return (float)expm1(x); }
long double expm1l(long double x) { return (long double)expm1((double)x); }
float logf(float x) { return (float)log(x); }
long double logl(long double x) { return (long double)log((double)x); }
float log2f(float x) { return (float)log2(x); }
long double log2l(long double x) { return (long double)log2((double)x); }
float log10f(float x) { return (float)log10(x); }
long double log10l(long double x) { return (long double)log10((double)x); }
float log1pf(float x) { return (float)log1p(x); }
long double log1pl(long double x) { return (long double)log1p((double)x); }
float logbf(float x) { return (float)logb(x); }
long double logbl(long double x) { return (long double)logb((double)x); }
float sinf(float x) { return (float)sin(x); }
long double sinl(long double x) { return (long double)sin((double)x); }
float cosf(float x) { return (float)cos(x); }
long double cosl(long double x) { return (long double)cos((double)x); }
float tanf(float x) { return (float)tan(x); }
long double tanl(long double x) { return (long double)tan((double)x); }
float atanf(float x) { return (float)atan(x); }
long double atanl(long double x) { return (long double)atan((double)x); }
float asinf(float x) { return (float)asin(x); }
long double asinl(long double x) { return (long double)asin((double)x); }
float acosf(float x) { return (float)acos(x); }
long double acosl(long double x) { return (long double)acos((double)x); }
float sinhf(float x) { return (float)sinh(x); }
long double sinhl(long double x) { return (long double)sinh((double)x); }
float coshf(float x) { return (float)cosh(x); }
long double coshl(long double x) { return (long double)cosh((double)x); }
float tanhf(float x) { return (float)tanh(x); }
long double tanhl(long double x) { return (long double)tanh((double)x); }
float asinhf(float x) { return (float)asinh(x); }
long double asinhl(long double x) { return (long double)asinh((double)x); }
float acoshf(float x) { return (float)acosh(x); }
long double acoshl(long double x) { return (long double)acosh((double)x); }
float atanhf(float x) { return (float)atanh(x); }
long double atanhl(long double x) { return (long double)atanh((double)x); }
float cbrtf(float x) { return (float)cbrt(x); }
long double cbrtl(long double x) { return (long double)cbrt((double)x); }
float powf(float x, float y) { return (float)pow(x, y); }
long double powl(long double x, long double y) { return (long double)pow((double)x, (double)y); }
float atan2f(float x, float y) { return (float)atan2(x, y); }
long double atan2l(long double x, long double y) { return (long double)atan2((double)x, (double)y); }
float hypotf(float x, float y) { return (float)hypot(x, y); }
long double hypotl(long double x, long double y) { return (long double)hypot((double)x, (double)y); }
int ilogbf(float x) { return ilogb(x); }
int ilogbl(long double x) { return ilogb((double)x); }
