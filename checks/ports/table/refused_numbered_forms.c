#include <stdarg.h>
#include <stdio.h>
static int n;
void say(const char *f, ...)
{
    va_list l;
    va_start(l, f);
    vprintf(f, l);
    va_end(l);
}
int main(void)
{
    printf("%1$d %1$d\n", n++);
    printf("%1$d %d\n", 1, 2);
    say("%2$s", 1, "a");
    printf("%3$d %1$d\n", 1, 2);
    scanf("%1$d", &n);
    printf("%d%% of 3%d$\n", 1, 2);
    return 0;
}
/* refused 13 a form that names its arguments by number */
/* refused 14 a form that names its arguments by number */
/* refused 15 a form that names its arguments by number */
/* refused 16 a form that names its arguments by number */
/* refused 17 a form that names its arguments by number */
