#include <stdio.h>
#include <stdlib.h>
#include <string.h>
/* The values of a parser: its tables say which member each has. */
typedef union { char *text; char letter; int number; struct list *list; } YYSTYPE;
struct list { int n; struct list *next; };
YYSTYPE yylval;
/* A tree whose depth says which member a node has. */
struct node { union { int *leaves[4]; struct node *down[4]; } items; };
struct value { int kind; union { long whole; double real; char *text; struct { int a, b; } pair; } as; };
static int lex(const char **at)
{
    if (**at >= '0' && **at <= '9') {
        yylval.number = 0;
        while (**at >= '0' && **at <= '9')
            yylval.number = yylval.number * 10 + *(*at)++ - '0';
        return 'n';
    }
    if (**at == '"') {
        yylval.text = malloc(20);
        sscanf(*at + 1, "%19[^\"]", yylval.text);
        *at += strlen(yylval.text) + 2;
        return 't';
    }
    yylval.letter = **at;
    return *(*at)++ ? 'c' : 0;
}
static struct list *push(struct list *next, int n) { struct list *l = malloc(sizeof *l); l->n = n; l->next = next; return l; }
static void parse(const char *s)
{
    YYSTYPE stack[20], *top = stack, val;
    int kind;
    val.list = NULL;
    *++top = val;
    while ((kind = lex(&s)) != 0) {
        *++top = yylval;
        switch (kind) {
        case 'n': val.list = push(top[-1].list, top[0].number); break;
        case 't': val.list = push(top[-1].list, (int) strlen(top[0].text)); free(top[0].text); break;
        default: val.number = top[0].letter; val.number++; printf("%c ", val.number); val = top[-1];
        }
        top -= 2;
        *++top = val;
    }
    for (; top->list; top->list = top->list->next)
        printf("%d ", top->list->n);
    puts("");
}
static struct node *made(int depth)
{
    struct node *n = malloc(sizeof *n);
    int i;
    for (i = 0; i < 4; i++)
        if (depth > 1)
            n->items.down[i] = i < 2 ? made(depth - 1) : NULL;
        else
            n->items.leaves[i] = calloc(1, sizeof(int));
    return n;
}
static int **leaf(struct node *n, int depth, int at) { return depth > 1 ? leaf(n->items.down[at & 1], depth - 1, at >> 1) : &(n->items.leaves[at & 3]); }
static void show(struct value v)
{
    if (v.kind == 0) { printf("%ld", v.as.whole); return; }
    if (v.kind == 1)
        printf(" %.2f", v.as.real);
    else if (v.kind == 2)
        printf(" %s", v.as.text);
    else
        printf(" %d\n", v.as.pair.a - v.as.pair.b);
}
int main(void)
{
    struct node *root = made(3);
    struct value v[4] = { { 0, { 5 } } };
    int i;
    parse("12\"abc\"x7");
    **leaf(root, 3, 5) = 8;
    *leaf(root, 3, 1) = *leaf(root, 3, 5);
    printf("%d %d\n", **leaf(root, 3, 1), **leaf(root, 3, 4));
    v[1].kind = 1;
    v[1].as.real = 2;
    v[1].as.real /= 8;
    v[2].kind = 2;
    v[2].as.text = "text";
    v[3].kind = 3;
    v[3].as.pair.a = 9;
    v[3].as.pair.b = 2;
    v[0].as.whole++;
    for (i = 0; i < 4; i++)
        show(v[i]);
    v[0] = v[1];
    v[0].as.real += 1;
    show(v[0]);
    return 0;
}
/* memory cells */
/* writes
y 7 3 12 
8 0
6 0.25 text 7
 1.25status 0 */
