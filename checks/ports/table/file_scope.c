#include <stdlib.h>
static int a;
int a_tentative;
int a_tentative;
extern int later;
static int helper(void);
int use(void) { return later + helper(); }
int later = 4;
int a_tentative = 6;
static int helper(void) { static int calls; return ++calls; }
int counter(void) { static int n = 10; { static int n = 100; n++; if (n < 101) abort(); } return n++; }
const int limit = 3;
volatile int flag;
register_test(x) register int x; { return x + 1; }
int main(void)
{
    extern int a_tentative;
    int a = 5;
    { extern int later; if (later != 4) abort(); }
    if (use() != 5 || use() != 6 || a_tentative != 6 || counter() != 10 || counter() != 11 || a != 5 || limit != 3) abort();
    flag = 1;
    if (!flag || register_test(4) != 5) abort();
    return 0;
}
