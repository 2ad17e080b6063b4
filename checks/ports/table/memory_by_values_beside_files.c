#include <stdio.h>
#include <stdlib.h>
typedef void *(*taker)(size_t);
typedef void (*giver)(void *);
struct hooks { taker take; giver give; };
static int begin(struct hooks *h, taker malloc, giver free) {
    int *p;
    h->take = malloc;
    h->give = free;
    p = malloc(sizeof(int));
    *p = 3;
    free(p);
    return 1;
}
static int there(const char *name) {
    FILE *file = fopen(name, "r");
    if (!file) return 0;
    fclose(file);
    return 1;
}
int main(void) {
    struct hooks h;
    char *text;
    printf("%d %d\n", there("nowhere"), begin(&h, malloc, free));
    text = h.take(2);
    text[0] = 'x';
    text[1] = 0;
    puts(text);
    h.give(text);
    return 0;
}
/* memory cells */
/* writes
0 1
x
status 0 */
