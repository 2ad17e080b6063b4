static int use(int (*f)(void)) { return f(); }
static int hidden(int n)
{
    int get(void) { return n; }
    { int n = 2; return get() + n; }
}
static int comes_back(int n)
{
    int get(void) { return n; }
    return n > 0 ? comes_back(n - 1) : use(get);
}
static int leaves(int n)
{
    __label__ out;
    void leave(void) { goto out; }
    leave();
    n = 1;
out:
    return n;
}
static int typed(int n)
{
    struct own { int a; } it = { n };
    enum { FEW = 3 };
    int get(void) { return it.a; }
    int few(void) { return FEW; }
    return get() + few();
}
static int sized(int n)
{
    int row[n];
    int get(void) { return sizeof row; }
    return get();
}
static int labelled(int n)
{
    void *to(void) { return &&out; }
    goto *to();
out:
    return n;
}
int main(void) { return hidden(1) + comes_back(1) + leaves(0) + typed(1) + sized(2) + labelled(3); }
/* refused 5 a function that uses `n`, where another `n` hides it */
/* refused 7 the address of a function within `comes_back`, which may be called while it runs */
/* refused 15 a `goto` out of a function within a function */
/* refused 25 `it` of the function around a function, by its type */
/* refused 26 `FEW` of the function around a function */
/* refused 32 `sizeof` of an array of the function around a function */
/* refused 37 the address of a label of the function around a function */
