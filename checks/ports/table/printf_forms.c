#include <stdio.h>
int main(void)
{
    int n;
    char b[40];
    printf("[%5d] [%-5d] [%05d] [%+d] [% d] [%.3d] [%6.3d] [%x] [%#x] [%X] [%#o] [%o]\n", 42, 42, 42, 42, 42, 7, 7, 255, 255, 255, 8, 8);
    printf("[%s] [%10s] [%-10s] [%.2s] [%5.1s] [%c] [%3c] [%-3c] [%%]\n", "abc", "abc", "abc", "abc", "abc", 'x', 'y', 'z');
    printf("[%*d] [%-*d] [%.*s] [%ld] [%lu] [%hhd] [%hd] [%hu] [%hhu] [%zu]\n", 6, 1, 6, 2, 2, "xyz", 3L, 4UL, 300, 70000, 70000, 300, sizeof(int));
    printf("[%lld] [%20lld] [%-20lld] [%020lld] [%llx] [%u]\n", -5000000000LL, 1LL << 50, 7LL, -7LL, 0xdeadbeefcafeULL, 4294967295u);
    n = printf("abc\n");
    printf("%d %n%d\n", n, &n, 12345);
    printf("%d\n", n);
    n = snprintf(b, 5, "%d", 1234567); printf("%s %d\n", b, n);
    n = sprintf(b, "%s=%03d;", "k", 5); printf("%s %d %s\n", b, n, (char *)0);
    putchar('a'); puts("b"); fputs("c\n", stdout); fputc('d', stdout); putc('\n', stdout); fprintf(stdout, "%d\n", 3);
    printf("no newline"); printf("\n"); printf("%s", ""); printf("%d%%\n", 5);
    { const char *f = "%d,%s\n"; printf(f, 1, "t"); }
    return printf("") + fwrite("xy\n", 1, 3, stdout) - 3;
}
/* writes
[   42] [42   ] [00042] [+42] [ 42] [007] [   007] [ff] [0xff] [FF] [010] [10]
[abc] [       abc] [abc       ] [ab] [    a] [x] [  y] [z  ] [%]
[     1] [2     ] [xy] [3] [4] [44] [4464] [4464] [44] [4]
[-5000000000] [    1125899906842624] [7                   ] [-0000000000000000007] [deadbeefcafe] [4294967295]
abc
4 12345
2
1234 7
k=005; 6 (null)
ab
c
d
3
no newline
5%
1,t
xy
status 0 */
