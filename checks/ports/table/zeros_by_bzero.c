#include <stdio.h>
#include <string.h>
#include <strings.h>
struct row { int id; char name[4]; };
int main(void)
{
    struct row row = { 7, "abc" }, rows[2] = { { 1, "x" }, { 2, "y" } };
    char text[4] = "abc";
    bzero(&row, sizeof row);
    bzero(rows, sizeof rows);
    bzero(text + 1, 2);
    printf("%d %d %d %d %d\n", row.id, row.name[0], rows[0].id, rows[1].name[0], text[0] + text[1]);
    return 0;
}
/* memory cells */
/* writes
0 0 0 0 97
status 0 */
