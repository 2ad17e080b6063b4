#include <stdio.h>
#include <stdlib.h>
/* On i386 a number of 64 bits is at 8 bytes where it stands alone, and at 4 in a struct: GNU C's __alignof__ says the former, _Alignof the latter. */
struct s { char c; double d; long long l; };
typedef double number;
double v;
long long w;
char before;
double row[3];
static number n;
struct s st;
_Alignas(double) int four;
#define ALONE(x) ((int)__alignof__(x))
int main(void)
{
    struct s *p = &st;
    double *made = malloc(sizeof *made);
    printf("%d %d %d %d\n", ALONE(double), (int)_Alignof(double), ALONE(long long), (int)_Alignof(unsigned long long));
    printf("%d %d %d %d\n", ALONE(v), ALONE(w), ALONE(row), ALONE(row[1]));
    printf("%d %d %d %d\n", ALONE(st.d), ALONE(p->l), ALONE(struct s), ALONE(*p));
    printf("%d %d %d %d %d\n", ALONE(number), ALONE(n), ALONE(double[2]), (int)_Alignof(double[2]), ALONE(four));
    printf("%d %d %d\n", ALONE(int), ALONE(char), ALONE(char *));
    printf("%d\n", (int)((unsigned long)&v % ALONE(v) + (unsigned long)&w % ALONE(w) + (unsigned long)row % ALONE(row) + (unsigned long)&n % ALONE(n) + (unsigned long)made % ALONE(*made)));
    return 0;
}
/* writes
8 4 8 4
8 8 8 8
4 4 4 4
8 8 8 4 4
4 1 4
0
status 0 */
