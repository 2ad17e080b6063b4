#include <stdio.h>
union value { char *text; int number; };
static void set(union value *v, int n) { if (n) v->number = n; else v->text = "none"; }
static int number(const union value *v) { return v->number; }
int main(void)
{
    union value one, two;
    set(&one, 4);
    set(&two, 0);
    printf("%d %s\n", number(&one), two.text);
    return number(&two);
}
/* memory cells */
/* writes
4 none
trap 5 */
