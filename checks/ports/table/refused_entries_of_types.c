#include <stdio.h>
enum a { A1 };
int main(void)
{
    enum a e = A1;
    int n = 0, *p = &n;
    puts(_Generic(n, int: "int", signed: "signed", default: "other"));
    puts(_Generic(e, enum a: "a", unsigned: "unsigned"));
    puts(_Generic(p, const int *: "const int *", double: "double"));
    puts(_Generic(p, int *: "int *", const int *: "const int *"));
    return 0;
}
/* refused 7 a `_Generic` with two entries for `int` */
/* refused 8 a `_Generic` with two entries */
/* refused 9 a `_Generic` without an entry for `int *` */
