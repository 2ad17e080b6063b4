#include <stdio.h>
#include <stdlib.h>
#define NAMES 26
#define LIMIT 1000000
#define DEEPEST 12

/* A calculator. Each line is `:NAME = expression` or an expression; operators
 * are + - * / % ^ and unary minus, functions are min(a,b), max(a,b), abs(a)
 * and sum(a,..), and variables are a to z. What is wrong in a line is told. */

int value[NAMES];
int known[NAMES];
int next;
int line;
int depth;
char *wrong;

void advance(void)
{
    next = getchar();
}

void skip_blanks(void)
{
    while (next == ' ')
        advance();
}

/* Only the first thing that is wrong in a line is told. */
void fail(char *what)
{
    if (wrong == NULL)
        wrong = what;
}

int is_letter(int c)
{
    return c >= 'a' && c <= 'z';
}

int is_digit(int c)
{
    return c >= '0' && c <= '9';
}

int accept(int c)
{
    skip_blanks();
    if (next != c)
        return 0;
    advance();
    return 1;
}

void expect(int c)
{
    if (!accept(c))
        fail("unexpected character");
}

int in_range(int n)
{
    if (n > LIMIT || n < -LIMIT) {
        fail("out of range");
        return 0;
    }
    return n;
}

int absolute(int n)
{
    return n < 0 ? -n : n;
}

int times(int a, int b)
{
    if (b != 0 && absolute(a) > LIMIT / absolute(b)) {
        fail("out of range");
        return 0;
    }
    return a * b;
}

int power(int base, int exponent)
{
    int result = 1;
    if (exponent < 0) {
        fail("negative exponent");
        return 0;
    }
    while (exponent > 0 && wrong == NULL) {
        result = times(result, base);
        exponent--;
        if (result == 0 || (result == 1 && base == 1))
            return result;
        if (base == -1)
            return exponent % 2 == 0 ? -1 : 1;
    }
    return result;
}

int sum_of(void);

int number(void)
{
    int n = 0;
    while (is_digit(next)) {
        n = in_range(10 * n + (next - '0'));
        advance();
    }
    return n;
}

/* A word is a variable, or a function where `(` follows. */
int is_word(char *word, char *other)
{
    int i = 0;
    while (word[i] && word[i] == other[i])
        i++;
    return word[i] == other[i];
}

int call(char *word)
{
    int first = sum_of();
    int second;
    int result = first;
    if (is_word(word, "abs")) {
        expect(')');
        return absolute(first);
    }
    if (!is_word(word, "min") && !is_word(word, "max") && !is_word(word, "sum")) {
        fail("unknown function");
        return 0;
    }
    while (accept(',') && wrong == NULL) {
        second = sum_of();
        if (is_word(word, "sum"))
            result = in_range(result + second);
        else if (is_word(word, "min") ? second < result : second > result)
            result = second;
    }
    expect(')');
    return result;
}

int word_value(void)
{
    char word[8];
    int n = 0;
    int result;
    while (is_letter(next)) {
        if (n < 7) {
            word[n] = next;
            n++;
        }
        advance();
    }
    word[n] = '\0';
    if (accept('(')) {
        depth++;
        result = call(word);
        depth--;
        return result;
    }
    if (n != 1 || !known[word[0] - 'a']) {
        fail("unknown name");
        return 0;
    }
    return value[word[0] - 'a'];
}

int primary(void)
{
    int result;
    skip_blanks();
    if (depth > DEEPEST) {
        fail("too deep");
        return 0;
    }
    if (is_digit(next))
        return number();
    if (is_letter(next))
        return word_value();
    if (accept('(')) {
        depth++;
        result = sum_of();
        depth--;
        expect(')');
        return result;
    }
    fail("value expected");
    return 0;
}

int sign_of(void)
{
    int negative = 0;
    int result;
    while (accept('-'))
        negative = !negative;
    result = primary();
    if (accept('^'))
        result = power(result, sign_of());
    return negative ? -result : result;
}

int product_of(void)
{
    int left = sign_of();
    int right;
    int operator;
    skip_blanks();
    while (wrong == NULL && (next == '*' || next == '/' || next == '%')) {
        operator = next;
        advance();
        right = sign_of();
        if (operator == '*')
            left = times(left, right);
        else if (right == 0)
            fail("division by zero");
        else if (operator == '/')
            left = left / right;
        else
            left = left % right;
        skip_blanks();
    }
    return left;
}

int sum_of(void)
{
    int left = product_of();
    int operator;
    skip_blanks();
    while (wrong == NULL && (next == '+' || next == '-')) {
        operator = next;
        advance();
        if (operator == '+')
            left = in_range(left + product_of());
        else
            left = in_range(left - product_of());
        skip_blanks();
    }
    return left;
}

/* `:x = e` keeps what `e` is; any other line is an expression alone. */
void do_line(void)
{
    int target = -1;
    int result;
    skip_blanks();
    if (accept(':')) {
        skip_blanks();
        if (!is_letter(next))
            fail("name expected");
        else
            target = next - 'a';
        advance();
        expect('=');
    }
    result = wrong == NULL ? sum_of() : 0;
    skip_blanks();
    if (next != '\n' && next != EOF)
        fail("unexpected character");
    if (wrong != NULL) {
        printf("line %d: %s\n", line, wrong);
        return;
    }
    if (target >= 0) {
        value[target] = result;
        known[target] = 1;
    }
    printf("%d\n", result);
}

int main(void)
{
    advance();
    while (next != EOF) {
        line++;
        wrong = NULL;
        depth = 0;
        if (next != '\n')
            do_line();
        while (next != '\n' && next != EOF)
            advance();
        if (next == '\n')
            advance();
    }
    printf("%d lines\n", line);
    return 0;
}
