#include <stdio.h>
#include <stdlib.h>

/* Reads lines such as `a=5 b=7 a?`: a letter is given a digit, or its digit is written. */
struct entry {
    int name;
    int value;
    struct entry *next;
};
struct entry *entries;

struct entry *find(int name)
{
    struct entry *e;
    for (e = entries; e; e = e->next)
        if (e->name == name)
            return e;
    return NULL;
}

void set(int name, int value)
{
    struct entry *e = find(name);
    if (!e) {
        e = malloc(sizeof(struct entry));
        e->name = name;
        e->next = entries;
        entries = e;
    }
    e->value = value;
}

int main(void)
{
    int c;
    int name = 0;
    while ((c = getchar()) != EOF) {
        if (c == '=')
            set(name, getchar() - '0');
        else if (c == '?')
            printf("%d\n", find(name)->value);
        else
            name = c;
    }
    return 0;
}
