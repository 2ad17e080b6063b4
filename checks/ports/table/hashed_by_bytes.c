#include <stdio.h>
#include <string.h>
struct key { short line; char kind, open; };
static unsigned hash(const void *key, int count)
{
    const unsigned char *byte = key;
    unsigned h = 5381;
    while (count-- > 0)
        h = 33 * h + *byte++;
    return h;
}
static unsigned hash_of(const void *key, int count)
{
    return hash(key, count) % 1000;
}
int main(void)
{
    struct key key = { 1000, 'k', 1 };
    int number = 70000;
    printf("%u %u %u\n", hash_of("pears", 5), hash_of(&key, sizeof key), hash_of(&number, sizeof number));
    return 0;
}
/* memory bytes */
/* writes
528 788 95
status 0 */
