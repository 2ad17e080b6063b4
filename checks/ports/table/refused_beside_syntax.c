#include <unistd.h>
int broken(int a)
{
    int b = a +;
    return b
}
int helper(void) { return fork(); }
int outer(void)
{
    int inner(x) int x; { return x; }
    return inner(1);
}
int main(void)
{
    return broken(1) + pipe(0) + nothing + helper();
}
/* refused 4 expected expression before ';' token */
/* refused 5 expected ';' before '}' token */
/* refused 7 `fork` */
/* refused 10 a function within a function, with the types of its parameters behind `)` */
