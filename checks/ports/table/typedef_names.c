#include <stdlib.h>
typedef int number, *pointer;
typedef number table[3];
typedef struct pair { number a; pointer b; } pair, *pairs;
int main(void)
{
    table t = { 1, 2, 3 };
    pair p;
    pairs q = &p;
    { typedef char number; number c = 300; if (c != 44 || sizeof(number) != 1) abort(); }
    q->a = t[1];
    q->b = &t[2];
    if (p.a + *p.b != 5 || sizeof(table) != 12 || sizeof(pair) != 8)
        abort();
    return 0;
}
