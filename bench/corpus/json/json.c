#include <stdio.h>
#include <stdlib.h>
#define DEEPEST 20
#define LONGEST 40
#define NOTHING 0
#define NUMBER 1
#define STRING 2
#define LIST 3
#define OBJECT 4
#define TRUTH 5

/* Reads a text of JSON without fractions into a tree, and writes it again:
 * members of objects by name, with what is asked for by paths behind it.
 * A path is a line such as  /name/2/other  after the line of the text. */

struct value {
    int kind;
    int number;
    char *text;
    char *name;
    int count;
    struct value *first;
    struct value *sibling;
};

int next;
int place;
int values;
char *wrong;

void advance(void)
{
    next = getchar();
    place++;
}

void fail(char *what)
{
    if (wrong == NULL)
        wrong = what;
}

void skip_blanks(void)
{
    while (next == ' ' || next == '\t')
        advance();
}

struct value *made(int kind)
{
    struct value *v = malloc(sizeof(struct value));
    if (v == NULL)
        exit(3);
    v->kind = kind;
    v->number = 0;
    v->text = NULL;
    v->name = NULL;
    v->count = 0;
    v->first = NULL;
    v->sibling = NULL;
    values++;
    return v;
}

void let_go(struct value *v)
{
    struct value *child;
    struct value *after;
    if (v == NULL)
        return;
    for (child = v->first; child != NULL; child = after) {
        after = child->sibling;
        let_go(child);
    }
    free(v->text);
    free(v->name);
    free(v);
    values--;
}

/* A string, with its escapes; NULL where it isn't whole. */
char *read_string(void)
{
    char *text = malloc(LONGEST + 1);
    int n = 0;
    if (text == NULL)
        exit(3);
    advance();
    while (next != '"') {
        if (next == EOF || next == '\n' || n == LONGEST) {
            fail("a string without end");
            free(text);
            return NULL;
        }
        if (next == '\\') {
            advance();
            if (next == 'n')
                next = ' ';
            else if (next != '"' && next != '\\' && next != '/')
                fail("an unknown escape");
        }
        text[n] = next;
        n++;
        advance();
    }
    text[n] = '\0';
    advance();
    return text;
}

int same(char *a, char *b)
{
    while (*a && *a == *b) {
        a++;
        b++;
    }
    return *a == *b;
}

int before(char *a, char *b)
{
    while (*a && *a == *b) {
        a++;
        b++;
    }
    return *a < *b;
}

void word(char *rest)
{
    while (*rest) {
        if (next != *rest) {
            fail("an unknown word");
            return;
        }
        advance();
        rest++;
    }
}

struct value *read_number(void)
{
    struct value *v = made(NUMBER);
    int negative = 0;
    int digits = 0;
    if (next == '-') {
        negative = 1;
        advance();
    }
    while (next >= '0' && next <= '9') {
        if (v->number > 99999999) {
            fail("a number too great");
            break;
        }
        v->number = 10 * v->number + (next - '0');
        digits++;
        advance();
    }
    if (digits == 0)
        fail("digits are missing");
    if (negative)
        v->number = -v->number;
    return v;
}

struct value *read_value(int depth);

/* Members of an object stand in the order of their names. */
void insert(struct value *object, struct value *member)
{
    struct value *at = object->first;
    if (at == NULL || before(member->name, at->name)) {
        member->sibling = at;
        object->first = member;
    } else {
        while (at->sibling != NULL && before(at->sibling->name, member->name))
            at = at->sibling;
        member->sibling = at->sibling;
        at->sibling = member;
    }
    object->count++;
}

struct value *read_list(int depth)
{
    struct value *list = made(LIST);
    struct value *last = NULL;
    struct value *item;
    advance();
    skip_blanks();
    if (next == ']') {
        advance();
        return list;
    }
    while (wrong == NULL) {
        item = read_value(depth + 1);
        if (last == NULL)
            list->first = item;
        else
            last->sibling = item;
        last = item;
        list->count++;
        skip_blanks();
        if (next != ',')
            break;
        advance();
    }
    if (next != ']')
        fail("a list without end");
    else
        advance();
    return list;
}

struct value *read_object(int depth)
{
    struct value *object = made(OBJECT);
    struct value *member;
    char *name;
    advance();
    skip_blanks();
    if (next == '}') {
        advance();
        return object;
    }
    while (wrong == NULL) {
        skip_blanks();
        if (next != '"') {
            fail("a name is missing");
            return object;
        }
        name = read_string();
        if (name == NULL)
            return object;
        skip_blanks();
        if (next != ':')
            fail("a colon is missing");
        else
            advance();
        member = read_value(depth + 1);
        member->name = name;
        insert(object, member);
        skip_blanks();
        if (next != ',')
            break;
        advance();
    }
    if (next != '}')
        fail("an object without end");
    else
        advance();
    return object;
}

struct value *read_value(int depth)
{
    struct value *v;
    skip_blanks();
    if (depth > DEEPEST) {
        fail("too deep");
        return made(NOTHING);
    }
    if (next == '[')
        return read_list(depth);
    if (next == '{')
        return read_object(depth);
    if (next == '"') {
        v = made(STRING);
        v->text = read_string();
        return v;
    }
    if (next == 't' || next == 'f') {
        v = made(TRUTH);
        v->number = next == 't';
        word(next == 't' ? "true" : "false");
        return v;
    }
    if (next == 'n') {
        word("null");
        return made(NOTHING);
    }
    return read_number();
}

void write_text(char *text)
{
    putchar('"');
    for (; *text; text++) {
        if (*text == '"' || *text == '\\')
            putchar('\\');
        putchar(*text);
    }
    putchar('"');
}

void write_value(struct value *v)
{
    struct value *child;
    if (v->kind == NUMBER)
        printf("%d", v->number);
    else if (v->kind == STRING)
        write_text(v->text);
    else if (v->kind == TRUTH)
        printf("%s", v->number ? "true" : "false");
    else if (v->kind == NOTHING)
        printf("null");
    else {
        putchar(v->kind == LIST ? '[' : '{');
        for (child = v->first; child != NULL; child = child->sibling) {
            if (child != v->first)
                putchar(',');
            if (v->kind == OBJECT) {
                write_text(child->name);
                putchar(':');
            }
            write_value(child);
        }
        putchar(v->kind == LIST ? ']' : '}');
    }
}

struct value *find(struct value *v, char *key)
{
    struct value *child = v->first;
    int index = 0;
    if (v->kind == OBJECT) {
        while (child != NULL && !same(child->name, key))
            child = child->sibling;
        return child;
    }
    if (v->kind != LIST || *key < '0' || *key > '9')
        return NULL;
    for (; *key >= '0' && *key <= '9'; key++)
        if (index < 1000)
            index = 10 * index + (*key - '0');
    if (index >= v->count)
        return NULL;
    for (; index > 0; index--)
        child = child->sibling;
    return child;
}

/* Follows a path from the root, and writes what is there. */
void ask(struct value *root)
{
    struct value *at = root;
    char key[LONGEST];
    int n;
    while (next == '/') {
        advance();
        n = 0;
        while (next != '/' && next != '\n' && next != EOF) {
            if (n < LONGEST - 1) {
                key[n] = next;
                n++;
            }
            advance();
        }
        key[n] = '\0';
        if (at != NULL)
            at = find(at, key);
    }
    if (at == NULL) {
        puts("nothing there");
        return;
    }
    write_value(at);
    printf(" (%d within)\n", at->count);
}

int main(void)
{
    struct value *root;
    advance();
    root = read_value(0);
    skip_blanks();
    if (wrong == NULL && next != '\n')
        fail("more than a value");
    if (wrong != NULL) {
        printf("%s at %d\n", wrong, place);
        return 1;
    }
    write_value(root);
    putchar('\n');
    advance();
    while (next == '/') {
        ask(root);
        if (next == '\n')
            advance();
    }
    let_go(root);
    printf("%d values left\n", values);
    return 0;
}
