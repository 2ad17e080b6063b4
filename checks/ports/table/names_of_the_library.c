#include <errno.h>
#include <error.h>
#include <math.h>
#include <stdio.h>
#include <string.h>
#include <time.h>
int main(void)
{
    time_t leap = 951782400;
    printf("%d %.1f\n", gmtime(&leap)->tm_mon, floor(-2.5));
    printf("%d %.1f\n", __builtin_parity(7), pow(-2.0, 3.0));
    printf("%s\n", strerror(ENOENT));
    fflush(stdout);
    error(3, 0, "over");
    return 0;
}
/* writes
1 -3.0
1 -8.0
No such file or directory
status 3 */
