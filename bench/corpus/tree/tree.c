#include <stdio.h>
#include <stdlib.h>
#define MOST 40

/* A phone book in a binary tree. Its commands stand in lines:
 *
 *   + NAME NUMBER   puts a name, or changes its number      - NAME   takes it away
 *   ? NAME          writes the number of a name             < NAME   writes the name before it
 *   !               writes all in order                     # NAME   writes how many names come before it
 *   @               writes the height and the number of names
 */

struct node {
    char *name;
    int number;
    int size;
    struct node *left;
    struct node *right;
};

struct node *root;
int next;
int made;
int freed;

int order(char *a, char *b)
{
    while (*a && *a == *b) {
        a++;
        b++;
    }
    return *a - *b;
}

char *copy(char *name)
{
    int n = 0;
    char *to;
    while (name[n])
        n++;
    to = malloc((n + 1) * sizeof(char));
    if (to == NULL)
        exit(3);
    for (; n >= 0; n--)
        to[n] = name[n];
    return to;
}

int size(struct node *at)
{
    return at == NULL ? 0 : at->size;
}

void count(struct node *at)
{
    at->size = size(at->left) + size(at->right) + 1;
}

struct node *leaf(char *name, int number)
{
    struct node *fresh = malloc(sizeof(struct node));
    if (fresh == NULL)
        exit(3);
    fresh->name = copy(name);
    fresh->number = number;
    fresh->size = 1;
    fresh->left = NULL;
    fresh->right = NULL;
    made++;
    return fresh;
}

struct node *put(struct node *at, char *name, int number)
{
    int way;
    if (at == NULL)
        return leaf(name, number);
    way = order(name, at->name);
    if (way < 0)
        at->left = put(at->left, name, number);
    else if (way > 0)
        at->right = put(at->right, name, number);
    else
        at->number = number;
    count(at);
    return at;
}

struct node *find(char *name)
{
    struct node *at = root;
    int way;
    while (at != NULL) {
        way = order(name, at->name);
        if (way == 0)
            return at;
        at = way < 0 ? at->left : at->right;
    }
    return NULL;
}

void drop(struct node *at)
{
    free(at->name);
    free(at);
    freed++;
}

/* Takes the first node of a tree out of it; `first` is told which. */
struct node *without_first(struct node *at, struct node **first)
{
    struct node *rest;
    if (at->left == NULL) {
        *first = at;
        rest = at->right;
        return rest;
    }
    at->left = without_first(at->left, first);
    count(at);
    return at;
}

struct node *take(struct node *at, char *name)
{
    struct node *heir;
    struct node *rest;
    int way;
    if (at == NULL) {
        printf("no %s\n", name);
        return NULL;
    }
    way = order(name, at->name);
    if (way < 0) {
        at->left = take(at->left, name);
        count(at);
        return at;
    }
    if (way > 0) {
        at->right = take(at->right, name);
        count(at);
        return at;
    }
    if (at->left == NULL || at->right == NULL) {
        heir = at->left != NULL ? at->left : at->right;
        drop(at);
        return heir;
    }
    rest = without_first(at->right, &heir);
    heir->left = at->left;
    heir->right = rest;
    drop(at);
    count(heir);
    return heir;
}

int height(struct node *at)
{
    int left;
    int right;
    if (at == NULL)
        return 0;
    left = height(at->left);
    right = height(at->right);
    return (left > right ? left : right) + 1;
}

int rank(char *name)
{
    struct node *at = root;
    int before = 0;
    while (at != NULL) {
        if (order(name, at->name) <= 0) {
            at = at->left;
        } else {
            before += size(at->left) + 1;
            at = at->right;
        }
    }
    return before;
}

struct node *previous(char *name)
{
    struct node *at = root;
    struct node *best = NULL;
    while (at != NULL) {
        if (order(name, at->name) > 0) {
            best = at;
            at = at->right;
        } else {
            at = at->left;
        }
    }
    return best;
}

void write_all(struct node *at)
{
    if (at == NULL)
        return;
    write_all(at->left);
    printf("%s=%d ", at->name, at->number);
    write_all(at->right);
}

void drop_all(struct node *at)
{
    if (at == NULL)
        return;
    drop_all(at->left);
    drop_all(at->right);
    drop(at);
}

void read_name(char *name)
{
    int n = 0;
    while (next == ' ')
        next = getchar();
    while (next != ' ' && next != '\n' && next != EOF) {
        if (n < 11) {
            name[n] = next;
            n++;
        }
        next = getchar();
    }
    name[n] = '\0';
}

int read_number(void)
{
    int n = 0;
    while (next == ' ')
        next = getchar();
    while (next >= '0' && next <= '9') {
        if (n < 10000)
            n = 10 * n + (next - '0');
        next = getchar();
    }
    return n;
}

void command(int letter)
{
    char name[12];
    struct node *at;
    read_name(name);
    if (letter == '+') {
        if (size(root) < MOST)
            root = put(root, name, read_number());
        else
            puts("full");
    } else if (letter == '-') {
        root = take(root, name);
    } else if (letter == '?') {
        at = find(name);
        if (at == NULL)
            printf("no %s\n", name);
        else
            printf("%s has %d\n", name, at->number);
    } else if (letter == '<') {
        at = previous(name);
        if (at == NULL)
            printf("none before %s\n", name);
        else
            printf("%s before %s\n", at->name, name);
    } else if (letter == '#') {
        printf("%d before %s\n", rank(name), name);
    } else if (letter == '!') {
        write_all(root);
        putchar('\n');
    } else if (letter == '@') {
        printf("height %d of %d\n", height(root), size(root));
    } else {
        puts("unknown");
    }
}

int main(void)
{
    int letter;
    next = getchar();
    while (next != EOF) {
        letter = next;
        if (letter != '\n') {
            next = getchar();
            command(letter);
        }
        while (next != '\n' && next != EOF)
            next = getchar();
        next = getchar();
    }
    drop_all(root);
    printf("%d made %d freed\n", made, freed);
    return 0;
}
