#include <errno.h>
int __cbi_all_digits(char *text, unsigned long long a, int *point) {
    unsigned limb[290]; int count = 0; int length = 0; int n; int k; int e = __cbi_double_exponent(a); unsigned by; unsigned carry; unsigned d; unsigned long long m = __cbi_double_mantissa(a);
    if (m == 0) { text[0] = '0'; *point = 1; return 1; }
    while (!(m & 1)) { m = m >> 1; e++; }
    while (m) { limb[count] = (unsigned)(m % 10000); m = m / 10000; count++; }
    k = e < 0 ? -e : e;
    while (k > 0) {
        if (e > 0) { by = k >= 13 ? 8192u : 1u << k; k -= 13; } else { by = k >= 5 ? 3125u : k == 4 ? 625u : k == 3 ? 125u : k == 2 ? 25u : 5u; k -= 5; }
        carry = 0;
        for (n = 0; n < count; n++) { carry = limb[n] * by + carry; limb[n] = carry % 10000u; carry = carry / 10000u; }
        if (carry) { limb[count] = carry; count++; }
    }
    for (n = count - 1; n >= 0; n--) for (by = 1000; by; by = by / 10u) { d = limb[n] / by % 10u; if (length || d) { text[length] = '0' + d; length++; } }
    *point = length - (e < 0 ? -e : 0);
    return length;
}
int __cbi_rounded(char *text, int length, int keep, int *point) {
    int up; int n;
    if (keep >= length) return length;
    if (keep < 0) return 0;
    up = text[keep] > '5' || text[keep] == '5' && keep > 0 && (text[keep - 1] & 1);
    if (text[keep] == '5') for (n = keep + 1; n < length; n++) if (text[n] != '0') up = 1;
    if (!up) return keep;
    for (n = keep - 1; n >= 0 && text[n] == '9'; n--) text[n] = '0';
    if (n >= 0) { text[n] = text[n] + 1; return keep; }
    for (n = keep; n > 0; n--) text[n] = text[n - 1];
    text[0] = '1';
    *point = *point + 1;
    return keep + 1;
}
void __cbi_real(struct __cbi_sink *to, unsigned long long a, int letter, int flags, int width, int most, const char *sign) {
    char text[1120]; int point = 1; int length; int x; int n; int size; int style = 0; int upper = letter == 'A' || letter == 'E' || letter == 'F' || letter == 'G'; int dot; const char *word;
    if (a >> 63) sign = "-";
    size = *sign != 0;
    if (__cbi_double_is_nan(a) || __cbi_double_is_infinite(a)) {
        if (__cbi_double_is_nan(a)) word = upper ? "NAN" : "nan"; else word = upper ? "INF" : "inf";
        if (!(flags & 1)) __cbi_pad(to, ' ', width - size - 3);
        if (*sign) __cbi_put(to, *sign);
        for (n = 0; n < 3; n++) __cbi_put(to, word[n]);
        if (flags & 1) __cbi_pad(to, ' ', width - size - 3);
        return;
    }
    if (most < 0) most = 6;
    length = __cbi_all_digits(text, a, &point);
    if (letter == 'g' || letter == 'G') {
        if (most == 0) most = 1;
        length = __cbi_rounded(text, length, most, &point);
        x = point - 1;
        if (x < -4 || x >= most) { style = 1; most = most - 1; } else most = most - 1 - x;
        if (!(flags & 4)) {
            for (n = length; n > 1 && text[n - 1] == '0'; ) n--;
            if (!style) n = n - point; else n = n - 1;
            if (n < 0) n = 0;
            if (most > n) most = n;
        }
    } else if (letter == 'e' || letter == 'E') { style = 1; length = __cbi_rounded(text, length, most + 1, &point); }
    else length = __cbi_rounded(text, length, point + most, &point);
    x = point - 1;
    dot = most > 0 || (flags & 4) != 0;
    if (style) size += 1 + dot + most + (x > 99 || x < -99 ? 5 : 4); else size += (point > 0 ? point : 1) + dot + most;
    if (!(flags & 3)) __cbi_pad(to, ' ', width - size);
    if (*sign) __cbi_put(to, *sign);
    if ((flags & 3) == 2) __cbi_pad(to, '0', width - size);
    if (style) {
        __cbi_put(to, length > 0 ? text[0] : '0');
        if (dot) __cbi_put(to, '.');
        for (n = 1; n <= most; n++) __cbi_put(to, n < length ? text[n] : '0');
        __cbi_put(to, upper ? 'E' : 'e');
        __cbi_put(to, x < 0 ? '-' : '+');
        if (x < 0) x = -x;
        if (x > 99) __cbi_put(to, '0' + x / 100);
        __cbi_put(to, '0' + x / 10 % 10);
        __cbi_put(to, '0' + x % 10);
    } else {
        if (point <= 0) __cbi_put(to, '0');
        for (n = 0; n < point; n++) __cbi_put(to, n < length ? text[n] : '0');
        if (dot) __cbi_put(to, '.');
        for (n = point; n < point + most; n++) __cbi_put(to, n >= 0 && n < length ? text[n] : '0');
    }
    if (flags & 1) __cbi_pad(to, ' ', width - size);
}
unsigned long long __cbi_scaled(unsigned *limb, int count, int *e, int rest) {
    int n; int shift = 0; unsigned long long m = 0;
    while (count > 0 && limb[count - 1] == 0u) count--;
    for (n = count - 1; n >= 0 && n >= count - 4; n--) m = m << 16 | limb[n];
    if (n >= 0 || rest) while (!(m >> 63)) { m = m << 1; shift++; }
    *e = *e + 16 * (n + 1) - shift;
    if (n >= 0) { if (shift < 16) { m = m | limb[n] >> (16 - shift); if (limb[n] << shift & 65535u) rest = 1; } n--; }
    for (; n >= 0; n--) if (limb[n]) rest = 1;
    return m | rest;
}
unsigned long long __cbi_decimal_value(const char *s, const char **end, int *e) {
    unsigned limb[500]; int count = 0; int digits = 0; int ten = 0; int any = 0; int after = 0; int rest = 0; int n; int k; int minus; unsigned carry; const char *from;
    while (*s >= '0' && *s <= '9' || *s == '.' && !after) {
        if (*s == '.') { after = 1; s++; continue; }
        any = 1;
        if (digits || *s != '0') {
            if (digits < 800) { carry = *s - '0'; for (n = 0; n < count; n++) { carry = limb[n] * 10u + carry; limb[n] = carry & 65535u; carry = carry >> 16; } if (carry) { limb[count] = carry; count++; } digits++; if (after) ten--; }
            else { if (*s != '0') rest = 1; if (!after) ten++; }
        } else if (after) ten--;
        s++;
    }
    *e = 0;
    if (!any) { *end = 0; return 0; }
    if (*s == 'e' || *s == 'E') {
        from = s + 1; minus = *from == '-';
        if (*from == '-' || *from == '+') from++;
        if (*from >= '0' && *from <= '9') { k = 0; while (*from >= '0' && *from <= '9') { if (k < 100000) k = k * 10 + (*from - '0'); from++; } ten += minus ? -k : k; s = from; }
    }
    *end = s;
    if (count == 0) return 0;
    if (ten + digits > 320) { *e = 5000; return 1; }
    if (ten + digits < -330) { *e = -5000; return 1; }
    for (; ten > 0; ten--) { carry = 0; for (n = 0; n < count; n++) { carry = limb[n] * 10u + carry; limb[n] = carry & 65535u; carry = carry >> 16; } if (carry) { limb[count] = carry; count++; } }
    if (ten < 0) {
        k = 5 - ten / 4;
        for (n = count - 1; n >= 0; n--) limb[n + k] = limb[n];
        for (n = 0; n < k; n++) limb[n] = 0;
        count += k;
        *e = -16 * k;
        for (; ten < 0; ten++) { carry = 0; for (n = count - 1; n >= 0; n--) { carry = carry << 16 | limb[n]; limb[n] = carry / 10u; carry = carry % 10u; } if (carry) rest = 1; }
    }
    return __cbi_scaled(limb, count, e, rest);
}
unsigned long long __cbi_word_value(const char *s, const char **end) {
    const char *infinity = "infinity"; const char *nan = "nan"; int n = 0; int k = 0;
    while (n < 8 && (s[n] | 32) == infinity[n]) n++;
    while (k < 3 && (s[k] | 32) == nan[k]) k++;
    if (n == 8 || n >= 3) { *end = s + (n == 8 ? 8 : 3); return 0x7ff0000000000000ULL; }
    if (k == 3) { *end = s + 3; return 0x7ff8000000000000ULL; }
    *end = 0;
    return 0;
}
unsigned long long __cbi_hex_digits(const char *s, const char **end, int *e) {
    unsigned long long m = 0; int after = 0; int any = 0; int d; int k = 0; int minus; const char *from;
    *e = 0;
    while ((d = __cbi_digit(*s)) < 16 || *s == '.' && !after) {
        if (*s == '.') after = 1;
        else {
            any = 1;
            if (m >> 60) { if (d) m = m | 1; if (!after) *e = *e + 4; }
            else { m = m << 4 | d; if (after) *e = *e - 4; }
        }
        s++;
    }
    *end = any ? s : 0;
    if ((*s | 32) == 'p') {
        from = s + 1; minus = *from == '-';
        if (*from == '-' || *from == '+') from++;
        if (any && *from >= '0' && *from <= '9') { while (*from >= '0' && *from <= '9') { if (k < 100000) k = k * 10 + (*from - '0'); from++; } *e = *e + (minus ? -k : k); *end = from; }
    }
    return m;
}
unsigned long long __cbi_number_value(const char *at, const char **end, int *e) {
    unsigned long long m;
    if (*at != '0' || (at[1] | 32) != 'x') return __cbi_decimal_value(at, end, e);
    m = __cbi_hex_digits(at + 2, end, e);
    if (!*end) *end = at + 1;
    return m;
}
void __cbi_told_range(unsigned long long m, int e, int least, int great, int small) {
    int shift = least - e;
    if (great || m && small && shift > 0 && (shift > 63 || m & (1ULL << shift) - 1)) errno = ERANGE;
}
double strtod(const char *s, char **end) {
    const char *at = s; const char *stop; int minus; int e; unsigned long long m; unsigned long long bits;
    while (*at == ' ' || *at >= 9 && *at <= 13) at++;
    minus = *at == '-';
    if (*at == '-' || *at == '+') at++;
    m = __cbi_number_value(at, &stop, &e);
    if (!stop) { m = __cbi_word_value(at, &stop); if (end) *end = (char *)(stop ? stop : s); return __cbi_of_bits(m | (unsigned long long)(minus && stop) << 63); }
    if (end) *end = (char *)stop;
    bits = __cbi_double_pack(minus, e, m);
    __cbi_told_range(m, e, -1074, (bits >> 52 & 2047) == 2047, (bits >> 52 & 2047) == 0);
    return __cbi_of_bits(bits);
}
float __cbi_single_value(const char *s, char **end) {
    const char *at = s; const char *stop; int minus; int e; unsigned long long m; unsigned bits;
    while (*at == ' ' || *at >= 9 && *at <= 13) at++;
    minus = *at == '-';
    if (*at == '-' || *at == '+') at++;
    m = __cbi_number_value(at, &stop, &e);
    if (!stop) return (float)strtod(s, end);
    if (end) *end = (char *)stop;
    bits = __cbi_single_pack(minus, e, m);
    __cbi_told_range(m, e, -149, (bits >> 23 & 255u) == 255u, (bits >> 23 & 255u) == 0u);
    return __cbi_of_single(bits);
}
float strtof(const char *s, char **end) { return __cbi_single_value(s, end); }
double strtold(const char *s, char **end) { return strtod(s, end); }
double atof(const char *s) { return strtod(s, 0); }
