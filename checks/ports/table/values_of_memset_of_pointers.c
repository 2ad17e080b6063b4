#include <stdio.h>
#include <string.h>
int main(void)
{
    char *names[3] = { "x", "y", "z" }, **first;
    first = memset(names + 1, 0, 2 * sizeof *names);
    printf("%d %d %s\n", first == names + 1, first[0] == NULL && names[2] == NULL, names[0]);
    return memset(names, 0, sizeof names) == (void *)names ? 3 : 4;
}
/* writes
1 1 x
status 3 */
