#include <stdio.h>
#include <stdlib.h>
#include <string.h>
enum what { NUMBER, TEXT, PAIR };
struct pair { int left, right; };
struct value { enum what what; union { int number; char *text; struct pair pair; } u; };
static void read_number(const char *s, int *to) { *to = atoi(s); }
static void take_text(const char *s, char **to) { *to = malloc(strlen(s) + 1); strcpy(*to, s); }
static void swap(struct pair *p) { int n = p->left; p->left = p->right; p->right = n; }
static void step(int *n) { (*n)++; }
static void show(const struct value *v)
{
    const struct pair *p;
    switch (v->what) {
    case NUMBER: printf("%d\n", v->u.number); break;
    case TEXT: puts(v->u.text); break;
    case PAIR: p = &v->u.pair; printf("%d %d\n", p->left, p->right); break;
    }
}
int main(void)
{
    struct value v, all[2];
    int i;
    v.what = NUMBER;
    read_number("41", &v.u.number);
    step(&v.u.number);
    show(&v);
    v.what = TEXT;
    take_text("a text", &v.u.text);
    show(&v);
    free(v.u.text);
    v.what = PAIR;
    v.u.pair.left = 3;
    v.u.pair.right = 4;
    swap(&v.u.pair);
    step(&v.u.pair.right);
    show(&v);
    all[0] = v;
    all[1].what = NUMBER;
    all[1].u.number = 7;
    for (i = 0; i < 2; i++)
        show(&all[i]);
    return 0;
}
/* memory cells */
/* writes
42
a text
4 4
4 4
7
status 0 */
