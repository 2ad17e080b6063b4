#include <stdio.h>
enum colour { RED, GREEN, BLUE };
struct kinds {
    char plain; signed char with; unsigned char without; short small; unsigned short half; unsigned whole; long word; long long wide;
    _Bool truth; enum colour colour; double real; char *text; int (*call)(int);
    int low : 3; unsigned high : 5, all : 32; volatile int port;
};
static volatile int pins[2];
static int depth(struct kinds *k, int n)
{
    int before = k->small;
    k->small = n;
    if (k->small > 0 && n < 5)
        n += depth(k, n - 1);
    k->small = before;
    return n + k->small;
}
static int twice(int n)
{
    return 2 * n;
}
static int kinds(struct kinds *k)
{
    int n = 0;
    k->plain = 'p';
    k->with = -3;
    k->without = 250;
    k->without += 10;
    k->small = 40000;
    k->half = 70000;
    k->whole = 4000000000u;
    k->word = -5;
    k->wide = 1LL << 40;
    k->truth = 7;
    k->colour = BLUE;
    k->real = 1.5;
    k->text = "text";
    k->call = twice;
    k->low = 6;
    k->high = 35;
    k->all = 4294967295u;
    k->port = 3;
    k->port++;
    pins[1] = 8;
    if (k->plain == 'p' && k->with < 0 && k->without == 4)
        n += 1;
    if (k->small == -25536 && k->half == 4464 && k->whole > 3999999999u && k->word == -5 && k->wide > 1)
        n += 2;
    if (k->truth == 1 && k->colour == BLUE && k->real > 1.25 && *k->text == 't' && k->text[1] == 'e' && k->call(4) == 8)
        n += 4;
    if (k->low == -2 && k->high == 3 && k->all == 4294967295u && k->port == 4 && pins[1] == 8)
        n += 8;
    if ((k->without = 300) == 44 && (k->low = 5) == -3 && --k->without == 43 && k->high++ == 3 && k->high == 4)
        n += 16;
    return n;
}
int main(void)
{
    struct kinds k = { 0 };
    printf("%d", kinds(&k));
    k.small = 1;
    printf(" %d %d\n", depth(&k, 3), k.small);
    return 0;
}
/* seen by cells k->plain; k->with; k->without; k->small; k->half; k->whole; k->word; k->truth; k->colour; k->low; k->high; k->all; k->port; pins[1]; *k->text; k->text[1]; k.small */
/* seen by bytes k->plain; k->with; k->without; k->small; k->half; k->whole; k->word; k->truth; k->colour; k->low; k->high; k->all; k->port; pins[1]; *k->text; k->text[1]; k.small */
/* writes
31 13 1
status 0 */
