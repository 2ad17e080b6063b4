/* The usual shapes: a reader that gives up by `longjmp`, in a loop over lines. */
#include <setjmp.h>
#include <stdio.h>
#include <stdlib.h>
#include <string.h>
struct reader { const char *at; jmp_buf wrong; char told[40]; };
static void give_up(struct reader *r, const char *why, int at) { sprintf(r->told, "%s at %d", why, at); longjmp(r->wrong, at + 1); }
static int sum(struct reader *r, const char *begin);
static int atom(struct reader *r, const char *begin)
{
    int n = 0;
    if (*r->at == '(') {
        r->at++;
        n = sum(r, begin);
        if (*r->at++ != ')')
            give_up(r, "no )", (int)(r->at - begin) - 1);
        return n;
    }
    if (*r->at < '0' || *r->at > '9')
        give_up(r, "no number", (int)(r->at - begin));
    while (*r->at >= '0' && *r->at <= '9')
        n = 10 * n + *r->at++ - '0';
    return n;
}
static int product(struct reader *r, const char *begin)
{
    int n = atom(r, begin);
    while (*r->at == '*' || *r->at == '/') {
        char sign = *r->at++;
        int right = atom(r, begin);
        if (sign == '/' && right == 0)
            give_up(r, "division by 0", (int)(r->at - begin));
        n = sign == '*' ? n * right : n / right;
    }
    return n;
}
static int sum(struct reader *r, const char *begin)
{
    int n = product(r, begin);
    for (; *r->at == '+' || *r->at == '-';)
        n += *r->at++ == '+' ? product(r, begin) : -product(r, begin);
    return n;
}
int main(void)
{
    char line[80];
    struct reader r;
    int where, lines = 0, wrong = 0;
    memset(&r, 0, sizeof r);
    while (fgets(line, sizeof line, stdin)) {
        line[strcspn(line, "\n")] = 0;
        lines++;
        r.at = line;
        if ((where = setjmp(r.wrong)) != 0) {
            wrong++;
            printf("%d: %s (%d)\n", lines, r.told, where);
            continue;
        }
        where = sum(&r, line);
        if (*r.at)
            give_up(&r, "more", (int)(r.at - line));
        printf("%d\n", where);
    }
    printf("%d lines, %d wrong\n", lines, wrong);
    return wrong;
}
/* reads
1+2*3
(4-1)*(2
7/(3-3)
8-2-3
x
1 2
((5))
*/
/* writes
7
2: no ) at 8 (9)
3: division by 0 at 7 (8)
3
5: no number at 0 (1)
6: more at 1 (2)
5
7 lines, 4 wrong
status 4 */
