#include <stdio.h>
/* GNU C's mode says a size in place of a type. */
typedef unsigned int byte __attribute__((mode(QI)));
typedef int wide __attribute__((__mode__(__DI__)));
typedef unsigned __attribute__((mode(HI))) half;
typedef float exact __attribute__((mode(DF)));
typedef int word __attribute__((mode(word)));
struct s { char c; unsigned int n __attribute__((mode(__byte__))); wide w; };
static int small __attribute__((mode(QI))) = 300;
struct pair { int a, b; };
union either { int a; float b; };
int main(void)
{
    byte b = 255;
    wide w = 5000000000;
    half h = 65535;
    struct pair pair = { 1, 2 };
    union either either = { 3 };
    b++;
    h += 2;
    printf("%d %lld %d %d %d %d %d\n", b, (long long)w, h, (int)sizeof(exact), (int)sizeof(word), (int)sizeof(struct s), small);
    printf("%d %d %d %d %d %d\n", __builtin_classify_type(b), __builtin_classify_type(&b), __builtin_classify_type(1.5f), __builtin_classify_type(pair),
           __builtin_classify_type(either), __builtin_classify_type("text"));
    return 0;
}
/* writes
0 5000000000 1 8 4 12 44
1 5 8 12 13 5
status 0 */
