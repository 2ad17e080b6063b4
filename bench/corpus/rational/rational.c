#include <stdio.h>
#include <stdlib.h>
#include <string.h>

#define DEPTH 12
#define LARGEST 1000000

/* A calculator of fractions in postfix form. A line has numbers (3, -2/5) and
 * operators + - * / between blanks, also: n (negates), r (reciprocal), d (twice the
 * top), x (swaps), f (floor), p N (power), < (1 or 0), m (mediant), sN RN (keeps
 * in a register, and recalls). The top is written at the end of each line, as
 * a fraction and with three decimals. */

typedef struct {
    int top;
    int bottom;
} fraction;

static fraction stack[DEPTH];
static int depth;
static fraction registers[4];
static int line_number;
static int failures;
static int failed;

static void fail(const char *why)
{
    if (!failed)
        printf("line %d: %s\n", line_number, why);
    failed = 1;
}

static int gcd(int a, int b)
{
    while (b != 0) {
        int rest = a % b;
        a = b;
        b = rest;
    }
    return a < 0 ? -a : a;
}

static int fits(int n)
{
    return n <= LARGEST && n >= -LARGEST;
}

static fraction whole(int n)
{
    fraction f;
    f.top = n;
    f.bottom = 1;
    return f;
}

static int times(int a, int b)
{
    if (b != 0 && abs(a) > LARGEST / abs(b)) {
        fail("too large");
        return 1;
    }
    return a * b;
}

/* The fraction in its lowest terms, with its sign above. */
static fraction reduced(int top, int bottom)
{
    fraction f;
    int common = gcd(top, bottom);
    if (bottom == 0) {
        fail("division by zero");
        return whole(0);
    }
    if (bottom < 0)
        common = -common;
    f.top = top / common;
    f.bottom = bottom / common;
    if (!fits(f.top) || !fits(f.bottom))
        fail("too large");
    return f;
}

static fraction add(fraction a, fraction b)
{
    int common = gcd(a.bottom, b.bottom);
    int left = times(a.top, b.bottom / common);
    int right = times(b.top, a.bottom / common);
    return reduced(left + right, times(a.bottom, b.bottom / common));
}

static fraction negated(fraction a)
{
    a.top = -a.top;
    return a;
}

static fraction multiply(fraction a, fraction b)
{
    int first = gcd(a.top, b.bottom);
    int second = gcd(b.top, a.bottom);
    fraction f;
    if (a.top == 0 || b.top == 0)
        return whole(0);
    f.top = times(a.top / first, b.top / second);
    f.bottom = times(a.bottom / second, b.bottom / first);
    return f;
}

static fraction reciprocal(fraction a)
{
    if (a.top == 0) {
        fail("division by zero");
        return a;
    }
    return reduced(a.bottom, a.top);
}

static fraction floor_of(fraction a)
{
    int n = a.top / a.bottom;
    if (a.top < 0 && a.top % a.bottom != 0)
        n--;
    return whole(n);
}

static fraction power(fraction a, int n)
{
    fraction result = whole(1);
    if (n < 0) {
        a = reciprocal(a);
        n = -n;
    }
    while (n > 0 && !failed) {
        if (n % 2 == 1)
            result = multiply(result, a);
        n /= 2;
        if (n > 0)
            a = multiply(a, a);
    }
    return result;
}

static int less(fraction a, fraction b)
{
    return add(a, negated(b)).top < 0;
}

static void push(fraction f)
{
    if (depth == DEPTH)
        fail("too deep");
    else
        stack[depth++] = f;
}

static fraction pop(void)
{
    if (depth == 0) {
        fail("too few");
        return whole(1);
    }
    return stack[--depth];
}

static void do_operator(const char *word)
{
    fraction b = pop();
    fraction a;
    switch (word[0]) {
    case 'n':
        push(negated(b));
        return;
    case 'r':
        push(reciprocal(b));
        return;
    case 'd':
        push(b);
        push(b);
        return;
    case 'f':
        push(floor_of(b));
        return;
    case 'p':
        push(power(b, atoi(word + 1)));
        return;
    case 's':
        registers[(word[1] - '0') & 3] = b;
        return;
    default:
        break;
    }
    a = pop();
    if (failed)
        return;
    switch (word[0]) {
    case '+':
        push(add(a, b));
        break;
    case '-':
        push(add(a, negated(b)));
        break;
    case '*':
        push(multiply(a, b));
        break;
    case '/':
        push(multiply(a, reciprocal(b)));
        break;
    case '<':
        push(whole(less(a, b)));
        break;
    case 'm':
        push(reduced(a.top + b.top, a.bottom + b.bottom));
        break;
    case 'x':
        push(b);
        push(a);
        break;
    default:
        fail("unknown");
    }
}

static int is_number(const char *word)
{
    if (*word == '-')
        word++;
    return *word >= '0' && *word <= '9';
}

static void do_word(const char *word)
{
    if (is_number(word)) {
        const char *slash = strchr(word, '/');
        int top = atoi(word);
        int bottom = slash ? atoi(slash + 1) : 1;
        push(reduced(top, bottom));
    } else if (word[0] == 'R') {
        push(registers[(word[1] - '0') & 3]);
    } else {
        do_operator(word);
    }
}

/* With three decimals, rounded toward zero. */
static void show(fraction f)
{
    int rest = abs(f.top % f.bottom);
    int i;
    if (f.bottom == 1)
        printf("%d", f.top);
    else
        printf("%d/%d", f.top, f.bottom);
    printf(" = %s%d.", f.top < 0 ? "-" : "", abs(f.top / f.bottom));
    for (i = 0; i < 3; i++) {
        rest *= 10;
        putchar('0' + rest / f.bottom);
        rest %= f.bottom;
    }
    putchar('\n');
}

static void do_line(char *text)
{
    char *word = text;
    failed = 0;
    depth = 0;
    while (*word && !failed) {
        char *end = word;
        while (*end && *end != ' ' && *end != '\n')
            end++;
        if (*end)
            *end++ = '\0';
        if (*word)
            do_word(word);
        word = end;
    }
    if (failed)
        failures++;
    else if (depth > 0)
        show(stack[depth - 1]);
    else
        puts("nothing");
}

int main(void)
{
    char text[80];
    int i;
    for (i = 0; i < 4; i++)
        registers[i] = whole(0);
    while (fgets(text, sizeof text, stdin) != NULL) {
        line_number++;
        do_line(text);
    }
    printf("%d lines, %d failed\n", line_number, failures);
    return 0;
}
