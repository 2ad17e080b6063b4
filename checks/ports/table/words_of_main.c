#include <stdio.h>
#include <string.h>
int main(int argc, char *argv[])
{
    int i;
    for (i = 1; i < argc; i++) printf("%d %s\n", (int)strlen(argv[i]), argv[i]);
    argv[1][0] = 'X';
    printf("%s %d\n", argv[1], argv[argc] == NULL);
    return argc;
}
/* words one 'two three' */
/* writes
3 one
9 two three
Xne 1
status 3 */
