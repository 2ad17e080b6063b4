#include <stdbool.h>
#include <stdlib.h>
bool is(int n) { return n; }
int main(void)
{
    bool b = 42;
    _Bool c = 0;
    int *p = &(int){ 1 };
    if (b != 1) abort();
    b = 256; if (b != 1) abort();
    b += 5; if (b != 1) abort();
    b = p; if (!b) abort();
    b = !p; if (b) abort();
    if (is(2) != true || is(0) != false) abort();
    c++; if (c != 1) abort();
    c--; if (c != 0) abort();
    c = 0x100000000LL; if (c != 1) abort();
    if ((bool)4 + (bool)8 != 2) abort();
    return 0;
}
