#include <ctype.h>
#include <stdio.h>
#include <stdlib.h>
#include <string.h>

#define MAX_LINES 30
#define MAX_LINE 72
#define MAX_LINKS 4
#define MAX_LABEL 12
#define MAX_DEPTH 4

/* Writes a text with marks as HTML. Blocks are `# head`, `- item` and `1. item` (within
 * others where they are indented by two), `> quote`, code between lines of ```, a rule
 * of ---, and paragraphs. Within them are *emphasis*, **strong** words, `code`,
 * [text](address), [text][label] with a line `[label]: address` anywhere, and \ before
 * what is meant as it is. */

typedef enum { NOTHING, PARAGRAPH, LIST, QUOTE, CODE } block_t;
typedef enum { BULLETS, NUMBERS } list_t;

typedef struct {
    char label[MAX_LABEL + 1];
    char address[MAX_LINE];
    int used;
} link_t;

static char lines[MAX_LINES][MAX_LINE];
static int count;
static link_t links[MAX_LINKS];
static int known;
static block_t now;
static list_t lists[MAX_DEPTH];
static int depth;
static int blocks;
static int unknown;

static void read_lines(void)
{
    while (count < MAX_LINES && fgets(lines[count], MAX_LINE, stdin) != NULL) {
        char *end = lines[count] + strlen(lines[count]);
        if (end > lines[count] && end[-1] == '\n')
            *--end = '\0';
        count++;
    }
}

static void write_char(char c)
{
    switch (c) {
    case '<':
        printf("&lt;");
        break;
    case '>':
        printf("&gt;");
        break;
    case '&':
        printf("&amp;");
        break;
    case '"':
        printf("&quot;");
        break;
    default:
        putchar(c);
    }
}

static void write_plain(const char *from, const char *end)
{
    while (from < end)
        write_char(*from++);
}

static int same_label(const char *label, const char *text, size_t length)
{
    size_t i;
    if (strlen(label) != length)
        return 0;
    for (i = 0; i < length; i++)
        if (tolower((unsigned char)label[i]) != tolower((unsigned char)text[i]))
            return 0;
    return 1;
}

static link_t *find(const char *label, size_t length)
{
    int i;
    for (i = 0; i < known; i++)
        if (same_label(links[i].label, label, length))
            return &links[i];
    return NULL;
}

/* Takes a line `[label]: address`; answers whether it is one. */
static int define(const char *line)
{
    const char *end = *line == '[' ? strstr(line, "]:") : NULL;
    size_t length;
    if (end == NULL)
        return 0;
    length = (size_t)(end - line - 1);
    if (length == 0 || length > MAX_LABEL)
        return 0;
    if (find(line + 1, length) != NULL || known == MAX_LINKS)
        return 1;
    memcpy(links[known].label, line + 1, length);
    links[known].label[length] = '\0';
    for (end += 2; *end == ' '; end++)
        ;
    strcpy(links[known++].address, end);
    return 1;
}

/* Definitions are taken out before anything is written; within code they are none. */
static void take_definitions(void)
{
    int i, left = 0, is_code = 0;
    for (i = 0; i < count; i++) {
        if (strncmp(lines[i], "```", 3) == 0)
            is_code = !is_code;
        if (!is_code && define(lines[i]))
            continue;
        if (left != i)
            memmove(lines[left], lines[i], MAX_LINE);
        left++;
    }
    count = left;
}

/* The place of a mark that closes, or NULL; what is escaped or code is none. */
static const char *closing(const char *at, const char *end, const char *mark)
{
    size_t length = strlen(mark);
    int is_code = 0;
    for (; at + length <= end; at++) {
        if (*at == '\\' && !is_code && at + 1 < end) {
            at++;
            continue;
        }
        if (strncmp(at, mark, length) == 0 && !is_code && !(length == 1 && *mark == '*' && at[1] == '*'))
            return at;
        if (*at == '`')
            is_code = !is_code;
        if (length == 1 && at[0] == '*' && at[1] == '*')
            at++;
    }
    return NULL;
}

static void write_text(const char *at, const char *end);

static void write_link(const char *from, const char *end, const char *address, size_t length)
{
    printf("<a href=\"");
    write_plain(address, address + length);
    printf("\">");
    write_text(from, end);
    printf("</a>");
}

/* [text](address) or [text][label]; answers what is behind it, or NULL where it is none. */
static const char *linked(const char *at, const char *end)
{
    const char *text_end = closing(at + 1, end, "]");
    const char *last;
    link_t *link;
    if (text_end == NULL || text_end + 1 >= end)
        return NULL;
    if (text_end[1] == '(') {
        last = closing(text_end + 2, end, ")");
        if (last == NULL)
            return NULL;
        write_link(at + 1, text_end, text_end + 2, (size_t)(last - text_end - 2));
        return last + 1;
    }
    if (text_end[1] != '[')
        return NULL;
    last = closing(text_end + 2, end, "]");
    if (last == NULL)
        return NULL;
    link = last == text_end + 2 ? find(at + 1, (size_t)(text_end - at - 1)) : find(text_end + 2, (size_t)(last - text_end - 2));
    if (link == NULL) {
        unknown++;
        return NULL;
    }
    link->used++;
    write_link(at + 1, text_end, link->address, strlen(link->address));
    return last + 1;
}

/* What stands between two marks, in a tag; answers what is behind it, or NULL. */
static const char *marked(const char *at, const char *end, const char *mark, const char *tag)
{
    const char *from = at + strlen(mark);
    const char *last = from < end && *from != ' ' ? closing(from, end, mark) : NULL;
    if (last == NULL || last == from || last[-1] == ' ')
        return NULL;
    printf("<%s>", tag);
    write_text(from, last);
    printf("</%s>", tag);
    return last + strlen(mark);
}

static const char *code_span(const char *at, const char *end)
{
    const char *last = at + 1;
    while (last < end && *last != '`')
        last++;
    if (last == end)
        return NULL;
    printf("<code>");
    write_plain(at + 1, last);
    printf("</code>");
    return last + 1;
}

static void write_text(const char *at, const char *end)
{
    while (at < end) {
        const char *behind = NULL;
        if (*at == '\\' && at + 1 < end && ispunct((unsigned char)at[1])) {
            write_char(at[1]);
            at += 2;
            continue;
        }
        if (*at == '`')
            behind = code_span(at, end);
        else if (*at == '[')
            behind = linked(at, end);
        else if (*at == '*' && at + 1 < end && at[1] == '*')
            behind = marked(at, end, "**", "strong");
        else if (*at == '*')
            behind = marked(at, end, "*", "em");
        if (behind != NULL)
            at = behind;
        else
            write_char(*at++);
    }
}

static void write_whole(const char *text)
{
    const char *end = text + strlen(text);
    while (end > text && end[-1] == ' ')
        end--;
    write_text(text, end);
}

static void close_lists(int deep)
{
    while (depth > deep) {
        depth--;
        printf("</li>\n</%s>\n", lists[depth] == BULLETS ? "ul" : "ol");
    }
}

static void item(int indent, list_t kind, const char *text)
{
    int level = indent / 2 + 1;
    if (level > depth + 1)
        level = depth + 1;
    if (level > MAX_DEPTH)
        level = MAX_DEPTH;
    close_lists(level);
    if (depth == level && lists[level - 1] != kind)
        close_lists(level - 1);
    if (depth == level) {
        printf("</li>\n");
    } else {
        printf("%s<%s>\n", depth > 0 ? "\n" : "", kind == BULLETS ? "ul" : "ol");
        lists[depth++] = kind;
    }
    printf("<li>");
    write_whole(text);
}

static void end_block(void)
{
    if (now == PARAGRAPH)
        printf("</p>\n");
    else if (now == QUOTE)
        printf("</p></blockquote>\n");
    else if (now == CODE)
        printf("</pre>\n");
    close_lists(0);
    now = NOTHING;
}

static void begin_block(block_t kind, const char *tag)
{
    end_block();
    printf("%s", tag);
    now = kind;
    blocks++;
}

static void heading(const char *line, int level)
{
    const char *text = line + level;
    const char *end = text + strlen(text);
    begin_block(NOTHING, "");
    while (*text == ' ')
        text++;
    while (end > text && (end[-1] == '#' || end[-1] == ' '))
        end--;
    printf("<h%d>", level);
    write_text(text, end);
    printf("</h%d>\n", level);
}

static int is_rule(const char *line)
{
    int n = 0;
    for (; *line == '-' || *line == ' '; line++)
        n += *line == '-';
    return *line == '\0' && n >= 3;
}

/* Words go on in the block that is open, where it is of their kind. */
static void words(block_t kind, const char *tag, const char *text)
{
    int breaks = strlen(text) > 2 && strcmp(text + strlen(text) - 2, "  ") == 0;
    if (now != kind)
        begin_block(kind, tag);
    else
        putchar('\n');
    write_whole(text);
    if (breaks)
        printf("<br>");
}

/* What a line is as an item of a list: the place of its text, or NULL. */
static const char *item_text(const char *at, list_t *kind)
{
    *kind = BULLETS;
    if ((*at == '-' || *at == '*') && at[1] == ' ')
        return at + 2;
    if (!isdigit((unsigned char)*at))
        return NULL;
    *kind = NUMBERS;
    while (isdigit((unsigned char)*at))
        at++;
    return at[0] == '.' && at[1] == ' ' ? at + 2 : NULL;
}

static void do_line(const char *line)
{
    const char *at = line, *text;
    list_t kind;
    int level = 0;
    if (strncmp(line, "```", 3) == 0) {
        if (now == CODE)
            end_block();
        else
            begin_block(CODE, "<pre>\n");
        return;
    }
    if (now == CODE) {
        write_plain(line, line + strlen(line));
        putchar('\n');
        return;
    }
    while (*at == ' ')
        at++;
    while (line[level] == '#')
        level++;
    text = item_text(at, &kind);
    if (*at == '\0') {
        end_block();
    } else if (level > 0 && level <= 6 && line[level] == ' ') {
        heading(line, level);
    } else if (is_rule(line)) {
        begin_block(NOTHING, "<hr>\n");
    } else if (*line == '>') {
        words(QUOTE, "<blockquote><p>", line[1] == ' ' ? line + 2 : line + 1);
    } else if (text != NULL) {
        if (now != LIST)
            begin_block(LIST, "");
        item((int)(at - line), kind, text);
    } else if (now == LIST) {
        putchar('\n');
        write_whole(at);
    } else {
        words(PARAGRAPH, "<p>", at);
    }
}

int main(void)
{
    int i, used = 0;
    read_lines();
    take_definitions();
    for (i = 0; i < count; i++)
        do_line(lines[i]);
    end_block();
    for (i = 0; i < known; i++)
        used += links[i].used;
    printf("%d blocks, %d of %d links used, %d unknown\n", blocks, used, known, unknown);
    return 0;
}
