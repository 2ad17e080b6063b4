#include <stdio.h>
struct f { int w; int x[]; };
struct c { short n; char t[]; };
static struct f f;
static int junk1[4];
int use(void) { return f.w + junk1[0]; }
static struct f f = { 4, { 0, 1, 2, 3 } };
static int junk1[] = { -1, -1, -1, -1 };
struct f g = { 2, { 7, 8 } };
struct c t = { 5, "hello" };

int after = 5;
char *s = "end";
int main(void)
{
    static struct f h = { 1, { 44 } };
    static int i;
    for (i = 0; i < f.w; i++) printf("%d ", f.x[i]);
    printf("%d %d %d %s %d %d\n", junk1[0], g.x[1], after, s, (int)sizeof f, use());
    printf("%s %d %d\n", t.t, h.x[0], (int)sizeof t);
    return 0;
}
/* writes
0 1 2 3 -1 8 5 end 4 3
hello 44 2
status 0 */
