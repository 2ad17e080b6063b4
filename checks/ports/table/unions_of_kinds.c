#include <stdio.h>
enum kind { NUMBER, TEXT, PAIR };
struct value { enum kind kind; union { int number; const char *text; struct value *pair; } as; };
static struct value number(int n) { struct value v; v.kind = NUMBER; v.as.number = n; return v; }
static struct value text(const char *s) { struct value v; v.kind = TEXT; v.as.text = s; return v; }
static void show(struct value v)
{
    switch (v.kind) {
    case NUMBER: printf("%d\n", v.as.number); break;
    case TEXT: printf("%s\n", v.as.text); break;
    case PAIR: show(v.as.pair[0]); show(v.as.pair[1]); break;
    }
}
int main(void)
{
    struct value two[2], p;
    two[0] = number(5);
    two[1] = text("five");
    p.kind = PAIR;
    p.as.pair = two;
    show(p);
    two[0] = two[1];
    show(p);
    return 0;
}
/* writes
5
five
five
five
status 0 */
