#include <stdio.h>
#include <stdlib.h>
#define NAME 12
#define BODY 40
#define MACROS 8
#define PARAMETERS 3
#define LINE 60
#define DEEPEST 8
#define WRITTEN 400

/* Expands macros, as a compiler does before it compiles. Lines of the input are
 *
 *   #define NAME TEXT, #define NAME(a,b) TEXT, #undef NAME
 *   #ifdef NAME, #ifndef NAME, #else, #endif, one within another
 *
 * and text, in which names that are defined are replaced; what came of it is
 * looked at again, but a macro isn't replaced within itself. Strings in quotes
 * stay, and comments from // on go. */

struct macro {
    char name[NAME];
    char body[BODY];
    char parameter[PARAMETERS][NAME];
    int parameters;
    int busy;
    int used;
};

struct macro *macros[MACROS];
char line[LINE];
int at;
int number;
int errors;
int written;
int skipping[DEEPEST];
int is_other[DEEPEST];
int depth;
int next;

void complain(char *what, char *whom)
{
    printf("%d: %s %s\n", number, what, whom);
    errors++;
}

int is_letter(int c)
{
    return (c >= 'a' && c <= 'z') || (c >= 'A' && c <= 'Z') || c == '_';
}

int is_digit(int c)
{
    return c >= '0' && c <= '9';
}

int same(char *a, char *b)
{
    while (*a && *a == *b) {
        a++;
        b++;
    }
    return *a == *b;
}

/* Reads a line without its comment; answers whether there was one. */
int read_line(void)
{
    int length = 0, quoted = 0, comment = 0;
    if (next == EOF)
        return 0;
    while (next != '\n' && next != EOF) {
        if (next == '"')
            quoted = !quoted;
        if (!comment && length < LINE - 1) {
            line[length] = next;
            length++;
        }
        if (!quoted && length > 1 && line[length - 1] == '/' && line[length - 2] == '/') {
            comment = 1;
            length -= 2;
        }
        next = getchar();
    }
    next = getchar();
    line[length] = '\0';
    at = 0;
    number++;
    return 1;
}

void skip_blanks(void)
{
    while (line[at] == ' ')
        at++;
}

/* Takes a word from a text; answers how long it is there. */
int take_word(char *text, char *name)
{
    int i = 0;
    while (is_letter(text[i]) || is_digit(text[i])) {
        if (i < NAME - 1)
            name[i] = text[i];
        i++;
    }
    name[i < NAME - 1 ? i : NAME - 1] = '\0';
    return i;
}

/* The name that comes next in the line; empty where none does. */
void read_name(char *name)
{
    skip_blanks();
    name[0] = '\0';
    if (is_letter(line[at]))
        at += take_word(line + at, name);
}

int find(char *name)
{
    int i;
    for (i = 0; i < MACROS; i++)
        if (macros[i] != NULL && same(macros[i]->name, name))
            return i;
    return -1;
}

void undefine(char *name)
{
    int which = find(name);
    if (which >= 0) {
        free(macros[which]);
        macros[which] = NULL;
    }
}

/* The names between parentheses; answers how many, or -2 where they are wrong. */
int read_parameters(struct macro *macro)
{
    int n = 0;
    at++;
    skip_blanks();
    while (line[at] != ')') {
        if (n == PARAMETERS)
            return -2;
        read_name(macro->parameter[n]);
        if (macro->parameter[n][0] == '\0')
            return -2;
        n++;
        skip_blanks();
        if (line[at] == ',')
            at++;
        else if (line[at] != ')')
            return -2;
    }
    at++;
    return n;
}

void read_body(struct macro *macro)
{
    int n = 0;
    skip_blanks();
    while (line[at] && n < BODY - 1) {
        macro->body[n] = line[at];
        n++;
        at++;
    }
    for (; n > 0 && macro->body[n - 1] == ' '; n--)
        ;
    macro->body[n] = '\0';
}

void define(void)
{
    struct macro *macro = malloc(sizeof(struct macro));
    int which = 0;
    if (macro == NULL)
        exit(3);
    read_name(macro->name);
    macro->parameters = line[at] == '(' ? read_parameters(macro) : -1;
    macro->busy = 0;
    macro->used = 0;
    if (macro->name[0] == '\0' || macro->parameters < -1) {
        complain("bad definition", line);
        free(macro);
        return;
    }
    read_body(macro);
    undefine(macro->name);
    while (which < MACROS && macros[which] != NULL)
        which++;
    if (which == MACROS) {
        complain("no room for", macro->name);
        free(macro);
        return;
    }
    macros[which] = macro;
}

void put(int c)
{
    if (written < WRITTEN)
        putchar(c);
    written++;
}

void put_all(char *text)
{
    for (; *text; text++)
        put(*text);
}

/* The arguments behind a name, each with a zero behind it; answers how long they are, or 0 where none stand there. */
int read_arguments(char *text, char *arguments, int *many)
{
    int i = 0, n = 0, open = 0;
    while (text[i] == ' ')
        i++;
    if (text[i] != '(')
        return 0;
    *many = 0;
    do {
        open += (text[i] == '(') - (text[i] == ')');
        if (open == 0 || (open == 1 && text[i] == ',')) {
            arguments[n] = '\0';
            n++;
            (*many)++;
        } else if (open > 1 || text[i] != '(') {
            arguments[n] = text[i];
            n++;
        }
        i++;
    } while (text[i] && open > 0);
    if (*many == 1 && n == 1)
        *many = 0;
    return open > 0 ? 0 : i;
}

/* The argument that a name stands for, or NULL. */
char *argument_of(struct macro *macro, char *name, char *arguments)
{
    int i;
    for (i = 0; i < macro->parameters; i++) {
        if (same(macro->parameter[i], name))
            return arguments;
        while (*arguments)
            arguments++;
        arguments++;
    }
    return NULL;
}

/* The body of a macro with arguments in the place of parameters. */
void fill(struct macro *macro, char *arguments, char *to)
{
    char name[NAME];
    char *from = macro->body, *part;
    int n = 0;
    while (*from) {
        name[0] = *from;
        name[1] = '\0';
        from += is_letter(*from) ? take_word(from, name) : 1;
        part = argument_of(macro, name, arguments);
        for (part = part != NULL ? part : name; *part && n < LINE - 1; part++) {
            to[n] = *part;
            n++;
        }
    }
    to[n] = '\0';
}

void expand(char *text, int deep);

/* Writes what a name stands for; answers how many characters behind it are taken. */
int expand_name(char *name, char *behind, int deep)
{
    struct macro *macro = find(name) < 0 ? NULL : macros[find(name)];
    char arguments[LINE], result[LINE];
    int many = -1, taken = 0;
    if (macro != NULL && macro->parameters >= 0)
        taken = read_arguments(behind, arguments, &many);
    if (macro == NULL || macro->busy || deep > DEEPEST || (macro->parameters >= 0 && taken == 0)) {
        put_all(name);
        return 0;
    }
    if (many != macro->parameters) {
        errors++;
        put_all(name);
        put('?');
        return taken;
    }
    fill(macro, arguments, result);
    macro->used++;
    macro->busy = 1;
    expand(result, deep + 1);
    macro->busy = 0;
    return taken;
}

/* Writes a text with its macros replaced. */
void expand(char *text, int deep)
{
    char name[NAME];
    int quoted = 0;
    while (*text) {
        if (*text == '"')
            quoted = !quoted;
        if (!quoted && is_letter(*text)) {
            text += take_word(text, name);
            text += expand_name(name, text, deep);
        } else if (!quoted && is_digit(*text)) {
            for (; is_digit(*text) || is_letter(*text); text++)
                put(*text);
        } else {
            put(*text);
            text++;
        }
    }
}

int is_skipping(void)
{
    int i;
    for (i = 0; i < depth; i++)
        if (skipping[i])
            return 1;
    return 0;
}

/* Takes a directive that opens, turns or closes a part; answers whether it was one. */
int conditional(char *word)
{
    char name[NAME];
    if (same(word, "ifdef") || same(word, "ifndef")) {
        read_name(name);
        if (depth == DEEPEST) {
            complain("too deep", name);
            return 1;
        }
        skipping[depth] = (find(name) >= 0) != same(word, "ifdef");
        is_other[depth] = 0;
        depth++;
        return 1;
    }
    if (!same(word, "else") && !same(word, "endif"))
        return 0;
    if (depth == 0 || (same(word, "else") && is_other[depth - 1])) {
        complain("misplaced", word);
    } else {
        depth--;
        if (same(word, "else")) {
            is_other[depth] = 1;
            skipping[depth] = !skipping[depth];
            depth++;
        }
    }
    return 1;
}

void directive(void)
{
    char word[NAME];
    at = 1;
    read_name(word);
    if (conditional(word) || is_skipping())
        return;
    if (same(word, "define")) {
        define();
    } else if (same(word, "undef")) {
        read_name(word);
        undefine(word);
    } else {
        complain("unknown", word);
    }
}

int main(void)
{
    int i;
    next = getchar();
    while (read_line()) {
        written = 0;
        if (line[0] == '#') {
            directive();
        } else if (!is_skipping()) {
            expand(line, 0);
            putchar('\n');
        }
    }
    if (depth > 0)
        complain("no end of", "a part");
    for (i = 0; i < MACROS; i++)
        if (macros[i] != NULL) {
            printf("%s %d\n", macros[i]->name, macros[i]->used);
            undefine(macros[i]->name);
        }
    printf("%d lines %d errors\n", number, errors);
    return 0;
}
