#include <stdio.h>
/* A `?:` in what is asked for, and in what is chosen; gcc's own way to lay out a struct, which is that of this machine. */
#define KIND(x) _Generic(x, int: "int", long *: "long *", char *: "char *", const char *: "const char *", default: "other")
struct __attribute__((gcc_struct)) bits { char c; int n : 9; };
int main(void)
{
    char text[3] = "ab";
    const char *fixed = "c";
    long number = 4;
    int one = 1;
    printf("%s %s\n", KIND(one ? text : text), KIND(one ? fixed : text));
    printf("%s %s\n", KIND(one ? &number : 0), KIND(one ? 1.5 : 2));
    printf("%d\n", _Generic(number, long: one ? 5 : 6, default: one ? 7 : 8));
    printf("%d\n", _Generic(one ? 2.5f : 1, int: 1, float: one ? number ? 9 : 10 : 11, default: 12));
    _Generic(0 ? text : text, char *: (void)0);
    printf("%d\n", (int)sizeof(struct bits));
    return 0;
}
/* writes
char * const char *
long * other
5
9
4
status 0 */
