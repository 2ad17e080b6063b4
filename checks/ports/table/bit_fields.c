#include <stdlib.h>
struct f { unsigned a : 3; int b : 5; unsigned c : 1; unsigned : 0; unsigned short d : 9; signed char e : 4; _Bool g : 1; unsigned h : 32; };
struct f z = { 7, -16, 1, 511, -8, 1, 4000000000u };
int main(void)
{
    struct f s = { 0 };
    s.a = 9; if (s.a != 1) abort();
    s.b = 17; if (s.b != -15) abort();
    s.b--; if (s.b != -16) abort();
    if (s.b-- != -16 || s.b != 15) abort();
    s.a += 7; if (s.a != 0) abort();
    if (s.a - 1 >= 0) abort();
    if ((s.a = 13) != 5) abort();
    s.c = 3; if (s.c != 1) abort();
    s.d = 1000; if (s.d != 488) abort();
    s.g = 2; if (s.g != 1) abort();
    if (z.a != 7 || z.b != -16 || z.d != 511 || z.e != -8 || z.h != 4000000000u || sizeof(struct f) != 12) abort();
    s = z; s.e++; if (s.e != -7 || z.e != -8) abort();
    s.h += 400000000u; if (s.h != 105032704u) abort();
    return 0;
}
