#include <stdio.h>
#include <stdlib.h>
static void last(void) { printf("last\n"); }
static void first(void) { printf("first\n"); }
int main(void)
{
    atexit(last);
    atexit(first);
    printf("main\n");
    exit(300);
}
/* writes
main
first
last
status 44 */
