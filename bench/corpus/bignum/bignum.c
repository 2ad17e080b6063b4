#include <ctype.h>
#include <stdio.h>
#include <stdlib.h>
#include <string.h>

#define DIGITS 48
#define BASE 10

/* Calculates with whole numbers of up to 48 digits. A line is `A op B`, where op
 * is one of + - * / % ^ < or g (the greatest common divisor), or `A !` (factorial),
 * or `A s` (the square root, rounded down). */

typedef struct {
    unsigned char digit[DIGITS];
    int length;
    int negative;
} number;

static int overflow;

static void clear(number *n)
{
    memset(n->digit, 0, sizeof n->digit);
    n->length = 0;
    n->negative = 0;
}

static void trim(number *n)
{
    while (n->length > 0 && n->digit[n->length - 1] == 0)
        n->length--;
    if (n->length == 0)
        n->negative = 0;
}

static number small(int value)
{
    number n;
    clear(&n);
    n.negative = value < 0;
    for (value = abs(value); value > 0; value /= BASE)
        n.digit[n.length++] = (unsigned char)(value % BASE);
    return n;
}

static int is_zero(const number *n)
{
    return n->length == 0;
}

/* Compares without signs. */
static int compare(const number *a, const number *b)
{
    int i;
    if (a->length != b->length)
        return a->length < b->length ? -1 : 1;
    for (i = a->length - 1; i >= 0; i--)
        if (a->digit[i] != b->digit[i])
            return a->digit[i] < b->digit[i] ? -1 : 1;
    return 0;
}

static void put_digit(number *n, int place, int value)
{
    if (place >= DIGITS) {
        if (value != 0)
            overflow = 1;
        return;
    }
    n->digit[place] = (unsigned char)value;
    if (place >= n->length)
        n->length = place + 1;
}

static int digit_at(const number *n, int place)
{
    return place < n->length ? n->digit[place] : 0;
}

static number add_plain(const number *a, const number *b)
{
    number sum;
    int carry = 0;
    int i;
    int most = a->length > b->length ? a->length : b->length;
    clear(&sum);
    for (i = 0; i < most || carry; i++) {
        int total = digit_at(a, i) + digit_at(b, i) + carry;
        put_digit(&sum, i, total % BASE);
        carry = total / BASE;
        if (i > DIGITS)
            break;
    }
    trim(&sum);
    return sum;
}

/* The greater one less the smaller one. */
static number subtract_plain(const number *a, const number *b)
{
    number rest;
    int borrow = 0;
    int i;
    clear(&rest);
    for (i = 0; i < a->length; i++) {
        int total = digit_at(a, i) - digit_at(b, i) - borrow;
        borrow = total < 0;
        put_digit(&rest, i, borrow ? total + BASE : total);
    }
    trim(&rest);
    return rest;
}

static number add(const number *a, const number *b)
{
    number result;
    int order;
    if (a->negative == b->negative) {
        result = add_plain(a, b);
        result.negative = a->negative;
    } else {
        order = compare(a, b);
        result = order < 0 ? subtract_plain(b, a) : subtract_plain(a, b);
        result.negative = order < 0 ? b->negative : a->negative;
    }
    trim(&result);
    return result;
}

static number subtract(const number *a, const number *b)
{
    number turned = *b;
    turned.negative = !b->negative;
    return add(a, &turned);
}

static number multiply(const number *a, const number *b)
{
    number product;
    int i, j;
    clear(&product);
    for (i = 0; i < a->length; i++) {
        int carry = 0;
        for (j = 0; j < b->length || carry; j++) {
            int total = a->digit[i] * digit_at(b, j) + digit_at(&product, i + j) + carry;
            put_digit(&product, i + j, total % BASE);
            carry = total / BASE;
        }
    }
    product.negative = a->negative != b->negative;
    trim(&product);
    return product;
}

static void shift_in(number *n, int value)
{
    int i;
    if (n->length == DIGITS) {
        overflow = 1;
        return;
    }
    for (i = n->length; i > 0; i--)
        n->digit[i] = n->digit[i - 1];
    n->digit[0] = (unsigned char)value;
    n->length++;
    trim(n);
}

/* Long division, toward zero; the rest has the sign of what is divided. */
static number divide(const number *a, const number *b, number *rest)
{
    number quotient;
    number divisor = *b;
    int i;
    clear(&quotient);
    clear(rest);
    divisor.negative = 0;
    for (i = a->length - 1; i >= 0; i--) {
        int times = 0;
        shift_in(rest, a->digit[i]);
        while (compare(rest, &divisor) >= 0) {
            *rest = subtract_plain(rest, &divisor);
            times++;
        }
        put_digit(&quotient, i, times);
    }
    quotient.negative = a->negative != b->negative;
    rest->negative = a->negative;
    trim(&quotient);
    trim(rest);
    return quotient;
}

static number power(const number *a, int exponent)
{
    number result = small(1);
    while (exponent-- > 0 && !overflow)
        result = multiply(&result, a);
    return result;
}

static number gcd(number a, number b)
{
    number rest;
    while (!is_zero(&b)) {
        divide(&a, &b, &rest);
        a = b;
        b = rest;
    }
    a.negative = 0;
    return a;
}

static number factorial(int n)
{
    number result = small(1);
    int i;
    for (i = 2; i <= n && !overflow; i++) {
        number factor = small(i);
        result = multiply(&result, &factor);
    }
    return result;
}

/* Newton's steps from above. */
static number root(const number *n)
{
    number guess;
    number next;
    number rest;
    number two = small(2);
    if (is_zero(n))
        return *n;
    guess = small(1);
    while (guess.length <= (n->length + 1) / 2)
        shift_in(&guess, 0);
    for (;;) {
        next = divide(n, &guess, &rest);
        next = add(&next, &guess);
        next = divide(&next, &two, &rest);
        if (compare(&next, &guess) >= 0)
            return guess;
        guess = next;
    }
}

static const char *read_number(const char *at, number *n)
{
    clear(n);
    while (*at == ' ')
        at++;
    if (*at == '-') {
        n->negative = 1;
        at++;
    }
    while (isdigit((unsigned char)*at))
        shift_in(n, *at++ - '0');
    trim(n);
    return at;
}

static void write_number(const number *n)
{
    int i;
    if (overflow) {
        puts("overflow");
        return;
    }
    if (n->negative)
        putchar('-');
    if (n->length == 0)
        putchar('0');
    for (i = n->length - 1; i >= 0; i--)
        putchar('0' + n->digit[i]);
    putchar('\n');
}

static int to_int(const number *n, int most)
{
    int value = 0;
    int i;
    if (n->negative || n->length > 4)
        return -1;
    for (i = n->length - 1; i >= 0; i--)
        value = BASE * value + n->digit[i];
    return value > most ? -1 : value;
}

static void calculate(const char *line)
{
    number a, b, rest, result;
    char op;
    int count;
    overflow = 0;
    line = read_number(line, &a);
    while (*line == ' ')
        line++;
    op = *line ? *line++ : '\0';
    read_number(line, &b);
    switch (op) {
    case '+':
        result = add(&a, &b);
        break;
    case '-':
        result = subtract(&a, &b);
        break;
    case '*':
        result = multiply(&a, &b);
        break;
    case '/':
    case '%':
        if (is_zero(&b)) {
            puts("division by zero");
            return;
        }
        result = divide(&a, &b, &rest);
        if (op == '%')
            result = rest;
        break;
    case '^':
    case '!':
        count = to_int(op == '^' ? &b : &a, 60);
        if (count < 0) {
            puts("a bad exponent");
            return;
        }
        result = op == '^' ? power(&a, count) : factorial(count);
        break;
    case 'g':
        result = gcd(a, b);
        break;
    case 's':
        if (a.negative || a.length > DIGITS - 4) {
            puts("no root");
            return;
        }
        result = root(&a);
        break;
    case '<':
        result = subtract(&a, &b);
        puts(result.negative ? "less" : "not less");
        return;
    default:
        puts("unknown");
        return;
    }
    write_number(&result);
}

int main(void)
{
    char line[120];
    while (fgets(line, sizeof line, stdin) != NULL)
        calculate(line);
    return 0;
}
