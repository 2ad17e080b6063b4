#include <ctype.h>
#include <stdio.h>
#include <stdlib.h>
#include <string.h>

#define MAX_LINE 40
#define MAX_UNDO 6

/* A line editor. Lines of its input are commands:
 *
 *   a TEXT       adds a line behind the present one     i TEXT    one before it
 *   d            deletes the present line               N         goes to line N
 *   s/OLD/NEW/   replaces OLD in the present line       g/OLD     goes to the next line with OLD
 *   m N          moves the present line behind line N   j         joins the next line to it
 *   u            undoes the last a, i, d or s           p  l      prints the line, all lines
 */

typedef struct line {
    char text[MAX_LINE];
    struct line *previous;
    struct line *next;
} line_t;

typedef enum { UNDO_ADD, UNDO_DELETE, UNDO_TEXT } undo_kind;

typedef struct {
    undo_kind kind;
    int number;
    char text[MAX_LINE];
} undo_t;

static line_t *first;
static line_t *last;
static line_t *present;
static int lines;
static undo_t undone[MAX_UNDO];
static int undos;

static int number_of(const line_t *line)
{
    int n = 0;
    while (line != NULL) {
        n++;
        line = line->previous;
    }
    return n;
}

static line_t *line_at(int number)
{
    line_t *line = first;
    while (line != NULL && number > 1) {
        line = line->next;
        number--;
    }
    return line;
}

/* Puts a line behind another one, or first of all. */
static void link_behind(line_t *line, line_t *before)
{
    line->previous = before;
    line->next = before ? before->next : first;
    if (line->next)
        line->next->previous = line;
    else
        last = line;
    if (before)
        before->next = line;
    else
        first = line;
    lines++;
}

static void unlink_line(line_t *line)
{
    if (line->previous)
        line->previous->next = line->next;
    else
        first = line->next;
    if (line->next)
        line->next->previous = line->previous;
    else
        last = line->previous;
    lines--;
}

static line_t *new_line(const char *text)
{
    line_t *line = malloc(sizeof(line_t));
    if (line == NULL)
        exit(3);
    strncpy(line->text, text, MAX_LINE - 1);
    line->text[MAX_LINE - 1] = '\0';
    line->previous = NULL;
    line->next = NULL;
    return line;
}

static void remember(undo_kind kind, int number, const char *text)
{
    int i;
    if (undos == MAX_UNDO) {
        for (i = 1; i < MAX_UNDO; i++)
            undone[i - 1] = undone[i];
        undos--;
    }
    undone[undos].kind = kind;
    undone[undos].number = number;
    strcpy(undone[undos].text, text);
    undos++;
}

static void add(const char *text, int before)
{
    line_t *line = new_line(text);
    line_t *behind = present;
    if (before && present)
        behind = present->previous;
    link_behind(line, behind);
    present = line;
    remember(UNDO_ADD, number_of(line), "");
}

static void delete_line(line_t *line)
{
    line_t *after = line->next ? line->next : line->previous;
    unlink_line(line);
    if (present == line)
        present = after;
    free(line);
}

static void substitute(const char *words)
{
    char old[MAX_LINE];
    char fresh[MAX_LINE];
    char result[MAX_LINE];
    const char *slash = strchr(words, '/');
    const char *found;
    const char *end;
    size_t room;
    if (slash == NULL || slash == words) {
        puts("? s/OLD/NEW/");
        return;
    }
    memcpy(old, words, slash - words);
    old[slash - words] = '\0';
    strcpy(fresh, slash + 1);
    end = strchr(slash + 1, '/');
    if (end)
        fresh[end - slash - 1] = '\0';
    found = strstr(present->text, old);
    if (found == NULL) {
        puts("? not found");
        return;
    }
    room = strlen(present->text) - strlen(old) + strlen(fresh);
    if (room >= MAX_LINE) {
        puts("? too long");
        return;
    }
    remember(UNDO_TEXT, number_of(present), present->text);
    memcpy(result, present->text, found - present->text);
    result[found - present->text] = '\0';
    strcat(result, fresh);
    strcat(result, found + strlen(old));
    strcpy(present->text, result);
}

static void search(const char *text)
{
    line_t *line = present->next ? present->next : first;
    while (line != present && strstr(line->text, text) == NULL)
        line = line->next ? line->next : first;
    if (strstr(line->text, text) == NULL)
        puts("? not found");
    else
        present = line;
}

static void move(int target)
{
    line_t *behind;
    if (target < 0 || target > lines) {
        puts("? no such line");
        return;
    }
    behind = target == 0 ? NULL : line_at(target);
    if (behind == present)
        return;
    unlink_line(present);
    link_behind(present, behind);
    undos = 0;
}

static void join(void)
{
    line_t *next = present->next;
    if (next == NULL) {
        puts("? last line");
        return;
    }
    if (strlen(present->text) + strlen(next->text) + 1 >= MAX_LINE) {
        puts("? too long");
        return;
    }
    strcat(present->text, " ");
    strcat(present->text, next->text);
    delete_line(next);
    undos = 0;
}

static void undo(void)
{
    undo_t *last_one;
    line_t *line;
    if (undos == 0) {
        puts("? nothing to undo");
        return;
    }
    undos--;
    last_one = &undone[undos];
    switch (last_one->kind) {
    case UNDO_ADD:
        delete_line(line_at(last_one->number));
        break;
    case UNDO_DELETE:
        line = new_line(last_one->text);
        link_behind(line, last_one->number > 1 ? line_at(last_one->number - 1) : NULL);
        present = line;
        break;
    case UNDO_TEXT:
        present = line_at(last_one->number);
        strcpy(present->text, last_one->text);
        break;
    }
}

static void list(void)
{
    const line_t *line;
    int n = 0;
    for (line = first; line; line = line->next)
        printf("%c%2d %s\n", line == present ? '>' : ' ', ++n, line->text);
}

static void command(char *text)
{
    int letter = text[0];
    char *rest = text[1] == ' ' ? text + 2 : text + 1;
    if (letter == 'a' || letter == 'i') {
        add(rest, letter == 'i');
        return;
    }
    if (letter == 'l') {
        list();
        return;
    }
    if (letter == 'u') {
        undo();
        return;
    }
    if (isdigit((unsigned char)letter)) {
        int number = atoi(text);
        if (number < 1 || number > lines)
            puts("? no such line");
        else
            present = line_at(number);
        return;
    }
    if (present == NULL) {
        puts("? no line");
        return;
    }
    switch (letter) {
    case 'd':
        remember(UNDO_DELETE, number_of(present), present->text);
        delete_line(present);
        break;
    case 's':
        substitute(rest[0] == '/' ? rest + 1 : rest);
        break;
    case 'g':
        search(rest[0] == '/' ? rest + 1 : rest);
        break;
    case 'm':
        move(atoi(rest));
        break;
    case 'j':
        join();
        break;
    case 'p':
        printf("%s\n", present->text);
        break;
    default:
        puts("? unknown");
    }
}

int main(void)
{
    char text[MAX_LINE];
    while (fgets(text, sizeof text, stdin)) {
        size_t n = strlen(text);
        if (n > 0 && text[n - 1] == '\n')
            text[n - 1] = '\0';
        if (text[0])
            command(text);
    }
    list();
    printf("%d lines, last %s\n", lines, last ? last->text : "none");
    while (first)
        delete_line(first);
    return 0;
}
