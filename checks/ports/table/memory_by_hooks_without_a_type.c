#include <stdio.h>
#include <stdlib.h>
struct hooks { void *(*allocate)(size_t n); void (*release)(void *p); };
static struct hooks hooks = { malloc, free };
static void *pool;
static unsigned char *bytes_of_it(void) { return pool; }
static int *numbers_of_it(void) { return pool; }
int main(void)
{
    pool = hooks.allocate(8);
    numbers_of_it()[0] = 258;
    printf("%d %d\n", bytes_of_it()[0], bytes_of_it()[1]);
    hooks.release(pool);
    return 0;
}
/* memory bytes */
/* writes
2 1
status 0 */
