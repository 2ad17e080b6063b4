#include <stdio.h>
int f(int n)
{
    struct s { int a[n]; int b; } x;
    x.b = n;
    return x.b + sizeof x;
}
struct t { char n; } known;
int main(void)
{
    struct t e = known;
    known = e;
    return f(3);
}
/* refused 4 an array of unknown length in a struct
 */
