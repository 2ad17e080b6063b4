// Numbers of 64 bits by two halves (C99 6.2.5): what overflows is trap 1 where the number has a sign.
struct cbi_long { unsigned low; unsigned high; };
struct cbi_long *cbi_long_of(struct cbi_long *to, unsigned high, unsigned low) {
    to->low = low;
    to->high = high;
    return to;
}
struct cbi_long *cbi_long_int(struct cbi_long *to, int value) {
    to->low = value;
    to->high = -(unsigned)(value < 0);
    return to;
}
struct cbi_long *cbi_long_unsigned(struct cbi_long *to, unsigned value) {
    to->low = value;
    to->high = 0;
    return to;
}
struct cbi_long *cbi_long_copy(struct cbi_long *to, struct cbi_long *a) {
    unsigned low = a->low;
    to->high = a->high;
    to->low = low;
    return to;
}
struct cbi_long *cbi_long_cut(struct cbi_long *to, struct cbi_long *a, int bits, int is_signed) {
    unsigned mask = (1u << (bits - 32)) - 1u;
    unsigned high = a->high & mask;
    if (is_signed && high >> (bits - 33)) high = high | ~mask;
    return cbi_long_of(to, high, a->low);
}
int cbi_long_is(struct cbi_long *a) {
    return (a->low | a->high) != 0;
}
int cbi_computed(struct cbi_long *to, struct cbi_long *a, int a_signed, struct cbi_long *b, int b_signed, int what, int bits, int is_signed) {
    int a_below = a_signed && a->high >> 31;
    int b_below = b_signed && b->high >> 31;
    int below;
    int over = 0;
    struct cbi_long left;
    struct cbi_long right;
    struct cbi_long most;
    struct cbi_long sum;
    cbi_long_copy(&left, a);
    cbi_long_copy(&right, b);
    if (a_below) cbi_long_minus(&left, &left);
    if (b_below) cbi_long_minus(&right, &right);
    if (what == 1) b_below = !b_below;
    below = a_below;
    if (what == 2) {
        below = a_below != b_below;
        cbi_long_times(&sum, &left, &right);
        if (cbi_long_is(&left)) {
            cbi_long_over(&most, &sum, &left);
            over = !cbi_long_same(&most, &right);
        }
    } else if (a_below == b_below) {
        cbi_long_plus(&sum, &left, &right);
        over = cbi_long_below(&sum, &left);
    } else if (cbi_long_below(&left, &right)) {
        cbi_long_less(&sum, &right, &left);
        below = b_below;
    } else cbi_long_less(&sum, &left, &right);
    if (!cbi_long_is(&sum)) below = 0;
    cbi_long_copy(to, &sum);
    if (below) cbi_long_minus(to, &sum);
    if (below && !is_signed) return 1;
    if (bits == 64 && !is_signed) return over;
    cbi_long_of(&most, 0, 1);
    cbi_long_shl(&most, &most, bits - is_signed);
    if (!below) cbi_long_less(&most, &most, cbi_long_of(&left, 0, 1));
    return over || cbi_long_below(&most, &sum);
}
int cbi_long_same(struct cbi_long *a, struct cbi_long *b) {
    return a->low == b->low && a->high == b->high;
}
int cbi_long_before(struct cbi_long *a, struct cbi_long *b) {
    if (a->high != b->high) return (int)a->high < (int)b->high;
    return a->low < b->low;
}
int cbi_long_before_turned(struct cbi_long *a, struct cbi_long *b) {
    return cbi_long_before(b, a);
}
int cbi_long_below(struct cbi_long *a, struct cbi_long *b) {
    if (a->high != b->high) return a->high < b->high;
    return a->low < b->low;
}
int cbi_long_below_turned(struct cbi_long *a, struct cbi_long *b) {
    return cbi_long_below(b, a);
}
void cbi_overflow(void) {
    int most = 2147483647;
    most++;
}
struct cbi_long *cbi_long_plus(struct cbi_long *to, struct cbi_long *a, struct cbi_long *b) {
    unsigned low = a->low + b->low;
    to->high = a->high + b->high + (unsigned)(low < a->low);
    to->low = low;
    return to;
}
struct cbi_long *cbi_long_less(struct cbi_long *to, struct cbi_long *a, struct cbi_long *b) {
    unsigned low = a->low - b->low;
    to->high = a->high - b->high - (unsigned)(a->low < b->low);
    to->low = low;
    return to;
}
struct cbi_long *cbi_long_add(struct cbi_long *to, struct cbi_long *a, struct cbi_long *b) {
    unsigned one = a->high;
    unsigned other = b->high;
    cbi_long_plus(to, a, b);
    if ((one ^ to->high) & (other ^ to->high) & 2147483648u) cbi_overflow();
    return to;
}
struct cbi_long *cbi_long_sub(struct cbi_long *to, struct cbi_long *a, struct cbi_long *b) {
    unsigned one = a->high;
    unsigned other = b->high;
    cbi_long_less(to, a, b);
    if ((one ^ other) & (one ^ to->high) & 2147483648u) cbi_overflow();
    return to;
}
struct cbi_long *cbi_long_wide(struct cbi_long *to, unsigned x, unsigned y) {
    unsigned xl = x & 65535;
    unsigned xh = x >> 16;
    unsigned yl = y & 65535;
    unsigned yh = y >> 16;
    unsigned low = xl * yl;
    unsigned middle = xh * yl + (low >> 16);
    unsigned other = xl * yh + (middle & 65535);
    to->low = (other << 16) | (low & 65535);
    to->high = xh * yh + (middle >> 16) + (other >> 16);
    return to;
}
struct cbi_long *cbi_long_times(struct cbi_long *to, struct cbi_long *a, struct cbi_long *b) {
    struct cbi_long wide;
    unsigned high = a->high * b->low + a->low * b->high;
    cbi_long_wide(&wide, a->low, b->low);
    to->low = wide.low;
    to->high = wide.high + high;
    return to;
}
struct cbi_long *cbi_long_size(struct cbi_long *to, struct cbi_long *a) {
    if (a->high & 2147483648u) return cbi_long_minus(to, a);
    return cbi_long_copy(to, a);
}
struct cbi_long *cbi_long_mul(struct cbi_long *to, struct cbi_long *a, struct cbi_long *b) {
    struct cbi_long x;
    struct cbi_long y;
    struct cbi_long wide;
    struct cbi_long cross;
    unsigned sign = (a->high ^ b->high) & 2147483648u;
    cbi_long_size(&x, a);
    cbi_long_size(&y, b);
    if (x.high != 0 && y.high != 0) cbi_overflow();
    cbi_long_wide(&wide, x.low, y.low);
    if (x.high != 0) cbi_long_wide(&cross, x.high, y.low);
    else cbi_long_wide(&cross, x.low, y.high);
    if (cross.high != 0) cbi_overflow();
    cross.high = wide.high + cross.low;
    if (cross.high < wide.high) cbi_overflow();
    wide.high = cross.high;
    if (sign) {
        if (wide.high > 2147483648u || (wide.high == 2147483648u && wide.low != 0)) cbi_overflow();
        return cbi_long_minus(to, &wide);
    }
    if (wide.high & 2147483648u) cbi_overflow();
    return cbi_long_copy(to, &wide);
}
struct cbi_long *cbi_long_minus(struct cbi_long *to, struct cbi_long *a) {
    unsigned low = -a->low;
    to->high = -a->high - (unsigned)(low != 0);
    to->low = low;
    return to;
}
struct cbi_long *cbi_long_neg(struct cbi_long *to, struct cbi_long *a) {
    if (a->high == 2147483648u && a->low == 0) cbi_overflow();
    return cbi_long_minus(to, a);
}
struct cbi_long *cbi_long_not(struct cbi_long *to, struct cbi_long *a) {
    to->low = ~a->low;
    to->high = ~a->high;
    return to;
}
struct cbi_long *cbi_long_and(struct cbi_long *to, struct cbi_long *a, struct cbi_long *b) {
    to->low = a->low & b->low;
    to->high = a->high & b->high;
    return to;
}
struct cbi_long *cbi_long_or(struct cbi_long *to, struct cbi_long *a, struct cbi_long *b) {
    to->low = a->low | b->low;
    to->high = a->high | b->high;
    return to;
}
struct cbi_long *cbi_long_xor(struct cbi_long *to, struct cbi_long *a, struct cbi_long *b) {
    to->low = a->low ^ b->low;
    to->high = a->high ^ b->high;
    return to;
}
int cbi_long_count(int count) {
    int bad = 32;
    if (count < 0 || count > 63) bad = 1 << bad;
    return count;
}
struct cbi_long *cbi_long_shl(struct cbi_long *to, struct cbi_long *a, int count) {
    unsigned low = a->low;
    unsigned high = a->high;
    cbi_long_count(count);
    if (count >= 32) {
        to->high = low << (count - 32);
        to->low = 0;
        return to;
    }
    to->low = low << count;
    if (count == 0) to->high = high;
    else to->high = (high << count) | (low >> (32 - count));
    return to;
}
struct cbi_long *cbi_long_shr(struct cbi_long *to, struct cbi_long *a, int count) {
    unsigned low = a->low;
    unsigned high = a->high;
    cbi_long_count(count);
    if (count >= 32) {
        to->low = high >> (count - 32);
        to->high = 0;
        return to;
    }
    to->high = high >> count;
    if (count == 0) to->low = low;
    else to->low = (low >> count) | (high << (32 - count));
    return to;
}
struct cbi_long *cbi_long_sar(struct cbi_long *to, struct cbi_long *a, int count) {
    unsigned low = a->low;
    int high = (int)a->high;
    cbi_long_count(count);
    if (count >= 32) {
        to->low = high >> (count - 32);
        to->high = high >> 31;
        return to;
    }
    to->high = high >> count;
    if (count == 0) to->low = low;
    else to->low = (low >> count) | ((unsigned)high << (32 - count));
    return to;
}
void cbi_long_split(struct cbi_long *quotient, struct cbi_long *rest, struct cbi_long *a, struct cbi_long *b) {
    struct cbi_long q;
    struct cbi_long r;
    struct cbi_long n;
    struct cbi_long d;
    int bit;
    cbi_long_copy(&n, a);
    cbi_long_copy(&d, b);
    if (d.high == 0 && n.high == 0) {
        q.high = 0;
        q.low = n.low / d.low;
        r.high = 0;
        r.low = n.low % d.low;
    } else {
        cbi_long_of(&q, 0u, 0u);
        cbi_long_of(&r, 0u, 0u);
        if (d.high == 0 && d.low == 0) d.low = 1u / d.low;
        for (bit = 63; bit >= 0; bit--) {
            unsigned carry = r.high >> 31;
            r.high = (r.high << 1) | (r.low >> 31);
            r.low = (r.low << 1) | ((bit >= 32 ? n.high >> (bit - 32) : n.low >> bit) & 1);
            if (carry || !cbi_long_below(&r, &d)) {
                cbi_long_less(&r, &r, &d);
                if (bit >= 32) q.high = q.high | (1u << (bit - 32));
                else q.low = q.low | (1u << bit);
            }
        }
    }
    cbi_long_copy(quotient, &q);
    cbi_long_copy(rest, &r);
}
struct cbi_long *cbi_long_over(struct cbi_long *to, struct cbi_long *a, struct cbi_long *b) {
    struct cbi_long rest;
    cbi_long_split(to, &rest, a, b);
    return to;
}
struct cbi_long *cbi_long_rest(struct cbi_long *to, struct cbi_long *a, struct cbi_long *b) {
    struct cbi_long quotient;
    cbi_long_split(&quotient, to, a, b);
    return to;
}
struct cbi_long *cbi_long_div(struct cbi_long *to, struct cbi_long *a, struct cbi_long *b) {
    struct cbi_long x;
    struct cbi_long y;
    unsigned sign = (a->high ^ b->high) & 2147483648u;
    cbi_long_size(&x, a);
    cbi_long_size(&y, b);
    cbi_long_over(&x, &x, &y);
    if (sign) return cbi_long_minus(to, &x);
    if (x.high & 2147483648u) cbi_overflow();
    return cbi_long_copy(to, &x);
}
struct cbi_long *cbi_long_rem(struct cbi_long *to, struct cbi_long *a, struct cbi_long *b) {
    struct cbi_long x;
    struct cbi_long y;
    unsigned sign = a->high & 2147483648u;
    cbi_long_size(&x, a);
    cbi_long_size(&y, b);
    cbi_long_rest(&x, &x, &y);
    if (sign) return cbi_long_minus(to, &x);
    return cbi_long_copy(to, &x);
}
struct cbi_jump_state { int last; int to; int value; };
struct cbi_jump_state cbi_jumps;
int cbi_jump_mark(void) {
    cbi_jumps.last = cbi_jumps.last + 1;
    return cbi_jumps.last;
}
void cbi_jump(int to, int value) {
    if (to == 0) abort();
    cbi_jumps.to = to;
    cbi_jumps.value = value + (value == 0);
}
