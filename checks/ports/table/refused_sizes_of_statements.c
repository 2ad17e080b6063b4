int f(void)
{
    int n = 0;
    return sizeof *({ n = 10; int x[n]; &x; });
}
int main(void) { return f(); }
/* refused 4 `sizeof` of an array of unknown length that statements within an expression give
 */
