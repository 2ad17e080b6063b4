static void end(int *n) { *n = 0; }
static int hidden(void)
{
    __attribute__((cleanup(end))) int a = 1;
    { int a = 2; if (a) return 3; }
    return 0;
}
static int valued(void) { return ({ __attribute__((cleanup(end))) int b = 4; b; }); }
static int by_address(int n)
{
    __attribute__((cleanup(end))) int c = 5;
    void *to = &&out;
    goto *to;
out:
    return c;
}
static int labels(int n) { switch (n) { case 1:; __attribute__((cleanup(end))) int d = 6; case 2: return 7; } return 0; }
int main(void) { return hidden() + valued() + by_address(1) + labels(1); }
/* refused 5 a `cleanup` of `a` where another `a` hides it */
/* refused 8 a `cleanup` in a statement within an expression */
/* refused 13 a `goto` by an address out of a scope with a `cleanup` */
/* refused 17 a `cleanup` between the labels of a `switch` */
