#include <err.h>
#include <stdio.h>
int main(void) {
    FILE *told = stderr;
    int c = getchar();
    fputs("a line\n", told);
    puts(told == stderr ? "one" : "two");
    if (c == 'x') errx(1, "%d", c);
    err(3, "the end");
}
/* reads
y
*/
/* writes
one
status 3 */
