// The functions of C99 7.12.8: erf, erfc, lgamma and tgamma, each by polynomials over parts of its range, as Sun's fdlibm has them, and tgamma by the
// sum of Lanczos. A value is a few units in the last place from the true one at most, but that of lgamma where it is near 0 for a number below 0.
#include <errno.h>
#include <math.h>
double __cbi_polynomial(double x, const double *factors, int count) {
    double sum = factors[--count];
    while (count > 0) sum = sum * x + factors[--count];
    return sum;
}
// Of erf between 0.84375 and 1.25, less 0.845062911510467529297.
double __cbi_erf_middle(double s) {
    static const double p[7] = { -2.36211856075265944077e-03, 4.14856118683748331666e-01, -3.72207876035701323847e-01, 3.18346619901161753674e-01, -1.10894694282396677476e-01, 3.54783043256182359371e-02, -2.16637559486879084300e-03 };
    static const double q[7] = { 1, 1.06420880400844228286e-01, 5.40397917702171048937e-01, 7.18286544141962662868e-02, 1.26171219808761642112e-01, 1.36370839120290507362e-02, 1.19844998467991074170e-02 };
    return __cbi_polynomial(s, p, 7) / __cbi_polynomial(s, q, 7);
}
// erfc from 1.25 on.
double __cbi_erfc_far(double x) {
    static const double ra[8] = { -9.86494403484714822705e-03, -6.93858572707181764372e-01, -1.05586262253232909814e+01, -6.23753324503260060396e+01, -1.62396669462573470355e+02, -1.84605092906711035994e+02, -8.12874355063065934246e+01, -9.81432934416914548592e+00 };
    static const double sa[9] = { 1, 1.96512716674392571292e+01, 1.37657754143519042600e+02, 4.34565877475229228821e+02, 6.45387271733267880336e+02, 4.29008140027567833386e+02, 1.08635005541779435134e+02, 6.57024977031928170135e+00, -6.04244152148580987438e-02 };
    static const double rb[7] = { -9.86494292470009928597e-03, -7.99283237680523006574e-01, -1.77579549177547519889e+01, -1.60636384855821916062e+02, -6.37566443368389627722e+02, -1.02509513161107724954e+03, -4.83519191608651397019e+02 };
    static const double sb[8] = { 1, 3.03380607434824582924e+01, 3.25792512996573918826e+02, 1.53672958608443695994e+03, 3.19985821950859553908e+03, 2.55305040643316442583e+03, 4.74528541206955367215e+02, -2.24409524465858183362e+01 };
    double s = 1 / (x * x); double r; double z = __cbi_of_bits(__cbi_bits(x) & 0xffffffff00000000ULL);
    if (x < 2.857142857142857) r = __cbi_polynomial(s, ra, 8) / __cbi_polynomial(s, sa, 9);
    else r = __cbi_polynomial(s, rb, 7) / __cbi_polynomial(s, sb, 8);
    return exp(-z * z - 0.5625) * exp((z - x) * (z + x) + r) / x;
}
double __cbi_erf_near(double z) {
    static const double p[5] = { 1.28379167095512558561e-01, -3.25042107247001499370e-01, -2.84817495755985104766e-02, -5.77027029648944159157e-03, -2.37630166566501626084e-05 };
    static const double q[6] = { 1, 3.97917223959155352819e-01, 6.50222499887672944485e-02, 5.08130628187576562776e-03, 1.32494738004321644526e-04, -3.96022827877536812320e-06 };
    return __cbi_polynomial(z, p, 5) / __cbi_polynomial(z, q, 6);
}
double erf(double x) {
    double a = fabs(x);
    if (x != x) return x;
    if (a < 0.84375) return a < 2.848094538889218e-306 ? 0.125 * (8 * x + 1.02703333676410069053 * x) : x + x * __cbi_erf_near(x * x);
    if (a < 1.25) return copysign(0.845062911510467529297 + __cbi_erf_middle(a - 1), x);
    return copysign(a < 6 ? 1 - __cbi_erfc_far(a) : 1, x);
}
double erfc(double x) {
    double a = fabs(x);
    if (x != x) return x;
    if (a < 0.84375) return x < 0.25 ? 1 - (x + x * __cbi_erf_near(x * x)) : 0.5 - (x - 0.5 + x * __cbi_erf_near(x * x));
    if (a < 1.25) return x < 0 ? 1 + (0.845062911510467529297 + __cbi_erf_middle(a - 1)) : 1 - 0.845062911510467529297 - __cbi_erf_middle(a - 1);
    if (x < 0) return x > -6 ? 2 - __cbi_erfc_far(a) : 2;
    if (x < 28) { a = __cbi_erfc_far(x); if (a == 0) errno = ERANGE; return a; }
    return isinf(x) ? 0 : __cbi_too_small(1);
}
// The sine of pi times a number.
double __cbi_sine_of_turns(double x) {
    int n; double f;
    f = 2 * (x * 0.5 - floor(x * 0.5));
    n = ((int)(f * 4) + 1) / 2;
    f = (f - n * 0.5) * 3.141592653589793;
    if (n == 1) return cos(f);
    if (n == 2) return sin(-f);
    return n == 3 ? -cos(f) : sin(f);
}
double __cbi_lgamma_to_2(double x) {
    static const double a[6] = { 7.72156649015328655494e-02, 6.73523010531292681824e-02, 7.38555086081402883957e-03, 1.19270763183362067845e-03, 2.20862790713908385557e-04, 2.52144565451257326939e-05 };
    static const double b[6] = { 3.22467033424113591611e-01, 2.05808084325167332806e-02, 2.89051383673415629091e-03, 5.10069792153511336608e-04, 1.08011567247583939954e-04, 4.48640949618915160150e-05 };
    static const double t[5] = { 4.83836122723810047042e-01, -3.27885410759859649565e-02, 6.10053870246291332635e-03, -1.40346469989232843813e-03, 3.15632070903625950361e-04 };
    static const double u[5] = { -1.47587722994593911752e-01, 1.79706750811820387126e-02, -3.68452016781138256760e-03, 8.81081882437654011382e-04, -3.12754168375120860518e-04 };
    static const double v[5] = { 6.46249402391333854778e-02, -1.03142241298341437450e-02, 2.25964780900612472250e-03, -5.38595305356740546715e-04, 3.35529192635519073543e-04 };
    static const double p[6] = { -7.72156649015328655494e-02, 6.32827064025093366517e-01, 1.45492250137234768737e+00, 9.77717527963372745603e-01, 2.28963728064692451092e-01, 1.33810918536787660377e-02 };
    static const double q[6] = { 1, 2.45597793713041134822e+00, 2.12848976379893395361e+00, 7.69285150456672783825e-01, 1.04222645593369134254e-01, 3.21709242282423911810e-03 };
    double r = 0; double y; double z; double w; double from = x <= 0.9 ? 1 : 0;
    if (x <= 0.9) r = -log(x);
    if (x + from >= 1.7316) {
        y = 2 - from - x;
        z = y * y;
        return r + (y * __cbi_polynomial(z, a, 6) + z * __cbi_polynomial(z, b, 6) - 0.5 * y);
    }
    if (x + from >= 1.23164) {
        y = x - (1.46163214496836224576 - from);
        z = y * y;
        w = z * y;
        return r + (-1.21486290535849611461e-01 + (z * __cbi_polynomial(w, t, 5) - (-3.63867699703950536541e-18 - w * (__cbi_polynomial(w, u, 5) + y * __cbi_polynomial(w, v, 5)))));
    }
    y = x - (1 - from);
    return r + (y * __cbi_polynomial(y, p, 6) / __cbi_polynomial(y, q, 6) - 0.5 * y);
}
double __cbi_lgamma_positive(double x) {
    static const double s[7] = { -7.72156649015328655494e-02, 2.14982415960608852501e-01, 3.25778796408930981787e-01, 1.46350472652464452805e-01, 2.66422703033638609560e-02, 1.84028451407337715652e-03, 3.19475326584100867617e-05 };
    static const double q[7] = { 1, 1.39200533467621045958e+00, 7.21935547567138069525e-01, 1.71933865632803078993e-01, 1.86459191715652901344e-02, 7.77942496381893596434e-04, 7.32668430744625636189e-06 };
    static const double w[6] = { 8.33333333333329678849e-02, -2.77777777728775536470e-03, 7.93650558643019558500e-04, -5.95187557450339963135e-04, 8.36339918996282139126e-04, -1.63092934096575273989e-03 };
    double y; double z = 1; int i;
    if (x == 1 || x == 2) return 0;
    if (x < 8.470329472543003e-22) return -log(x);
    if (x < 2) return __cbi_lgamma_to_2(x);
    if (x < 8) {
        i = (int)x;
        y = x - i;
        for (; i > 2; i--) z = z * (y + i - 1);
        return 0.5 * y + y * __cbi_polynomial(y, s, 7) / __cbi_polynomial(y, q, 7) + (z > 1 ? log(z) : 0);
    }
    if (x > 2.8823037615171174e+17) { y = x * (log(x) - 1); return isinf(y) && !isinf(x) ? __cbi_too_great(1) : y; }
    y = 1 / x;
    return (x - 0.5) * (log(x) - 1) + (4.18938533204672725052e-01 + y * __cbi_polynomial(y * y, w, 6));
}
double lgamma(double x) {
    double t;
    if (x != x) return x;
    if (isinf(x)) return fabs(x);
    if (x > 0) return __cbi_lgamma_positive(x);
    if (x == floor(x)) return __cbi_too_great(1);
    if (x > -8.470329472543003e-22) return -log(-x);
    t = __cbi_sine_of_turns(-x);
    return log(3.141592653589793 / fabs(t * x)) - __cbi_lgamma_positive(-x);
}
double __cbi_lanczos(double x) {
    static const double up[13] = { 23531376880.410759688572007674451636754734846804940, 42919803642.649098768957899047001988850926355848959, 35711959237.355668049440185451547166705960488635843, 17921034426.037209699919755754458931112671403265390, 6039542586.3520280050642916443072979210699388420708, 1439720407.3117216736632230727949123939715485786372, 248874557.86205415651146038641322942321632125127801, 31426415.585400194380614231628318205362874684987640, 2876370.6289353724412254090516208496135991145378768, 186056.26539522349504029498971604569928220784236328, 8071.6720023658162106380029022722506138218516325024, 210.82427775157934587250973392071336271166969580291, 2.5066282746310002701649081771338373386264310793408 };
    static const double down[13] = { 0, 39916800, 120543840, 150917976, 105258076, 45995730, 13339535, 2637558, 357423, 32670, 1925, 66, 1 };
    double over = 0; double below = 0; int i;
    if (x < 8) return __cbi_polynomial(x, up, 13) / __cbi_polynomial(x, down, 13);
    for (i = 0; i < 13; i++) { over = over / x + up[i]; below = below / x + down[i]; }
    return over / below;
}
// The square root of what belongs to the sum of Lanczos, as two numbers: of exp((x - 0.5) log(x + g) - (x + g)).
double __cbi_gamma_half(double x) {
    double y = x + 5.524680040776729583740234375; double lost; double h; double low; double p;
    lost = x > 5.524680040776729583740234375 ? y - x - 5.524680040776729583740234375 : y - 5.524680040776729583740234375 - x;
    h = __cbi_log_pair(y, -lost);
    low = __cbi_math.low * (x - 0.5);
    p = h * (x - 0.5);
    low = low + __cbi_lost(h, x - 0.5, p) + lost;
    p = __cbi_sum(p, -y);
    low = low + __cbi_math.low;
    return __cbi_exp_pair(0.5 * p, 0.5 * low);
}
double tgamma(double x) {
    double a = fabs(x); double half; double low; double r = 1; double y; int i;
    if (x != x) return x;
    if (isinf(x)) return x > 0 ? x : __cbi_invalid();
    if (x == 0) return __cbi_too_great(x);
    if (a < 5.5e-17) { y = 1 / x; return isinf(y) ? __cbi_too_great(x) : y; }
    if (x == floor(x) && x < 0) return __cbi_invalid();
    if (x == floor(x) && x < 24) { for (i = 2; i < x; i++) r = r * i; return r; }
    if (x > 171.6243769563027) return __cbi_too_great(1);
    if (x < -184) return __cbi_too_small(floor(x) * 0.5 == floor(x * 0.5) ? 1 : -1);
    half = __cbi_gamma_half(a);
    low = __cbi_math.low / half;
    r = __cbi_lanczos(a);
    r = r + 2 * r * low;
    if (x > 0) return r * half * half;
    y = 3.141592653589793 / (__cbi_sine_of_turns(a) * a * r) / half / half;
    return y == 0 ? __cbi_too_small(floor(x) * 0.5 == floor(x * 0.5) ? 1 : -1) : -y;
}
float erff(float x) { return (float)erf(x); }
long double erfl(long double x) { return erf(x); }
float erfcf(float x) { return (float)erfc(x); }
long double erfcl(long double x) { return erfc(x); }
float lgammaf(float x) { return (float)lgamma(x); }
long double lgammal(long double x) { return lgamma(x); }
float tgammaf(float x) { return (float)tgamma(x); }
long double tgammal(long double x) { return tgamma(x); }
