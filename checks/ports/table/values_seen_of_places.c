#include <stdio.h>
struct inner { int few[3]; char mark; };
struct table { int live, filled; struct inner in; struct table *next; };
static struct table outer = { 3, 5 };
static int grid[3][4], one[6];
static int sum(int left, int right)
{
    return left * 10 + right;
}
static int change(struct table *t, char *text, int i)
{
    t->live = t->filled + 1;
    t->live++;
    ++t->filled;
    t->in.few[i] = t->live;
    t->next->live -= 2;
    outer.in.mark = 'm';
    grid[i][i + 1] = 7;
    grid[i][i + 1] *= 3;
    one[i] = one[i + 1] = 9;
    one[one[i] - 8] = 4;
    *text = 'x';
    *(text + 1) = 'y';
    if (t->live > t->filled)
        *text += 1;
    return sum(t->in.few[i], (*t).next->live);
}
int main(void)
{
    struct table t = { 1, 2 };
    char text[4] = "abc";
    t.next = &outer;
    printf("%d\n", change(&t, text, 2));
    printf("%d %d %d %d %c %s %d %d %d\n", t.live, t.filled, t.in.few[2], outer.live, outer.in.mark, text, grid[2][3], one[1], one[2] + one[3]);
    return t.live == 4;
}
/* seen by cells t->live; t->filled; t->in.few[i]; t->next->live; outer.in.mark; grid[i][i + 1]; one[i]; one[i + 1]; one[one[i] - 8]; *text; *(text + 1); t.live; t.filled; t.in.few[2]; outer.live; grid[2][3]; one[1]; one[2]; one[3] */
/* seen by bytes t->live; t->filled; t->in.few[i]; t->next->live; outer.in.mark; grid[i][i + 1]; one[i]; one[i + 1]; one[one[i] - 8]; *text; *(text + 1) */
/* writes
41
4 3 4 1 m yyc 21 4 18
status 1 */
