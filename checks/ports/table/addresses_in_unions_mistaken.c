#include <stdio.h>
struct value { int is_text; union { int number; char *text; } u; };
static void set(int *to, int n) { *to = n; }
int main(void)
{
    struct value v;
    v.is_text = 0;
    v.u.text = "a text";
    puts(v.u.text);
    set(&v.u.number, 12);
    printf("%d\n", v.u.number);
    return v.u.text == NULL;
}
/* memory cells */
/* writes
a text
12
trap 5 */
