#include <ctype.h>
#include <stdio.h>
#include <stdlib.h>
#include <string.h>

#define MAX_WIDTH 40
#define MAX_WORD 30
#define MAX_LINE 200

/* Formats paragraphs. A line that begins with a dot is a command:
 *
 *   .w N   the width          .i N   lines are indented by N      .p N   and the first one by N more
 *   .j     both edges straight   .l   left edge   .c   centred    .r   right edge
 *   .b     a break            .t     a line `title` on its own    .n     lines get numbers, or none
 *
 * Words that are longer than a line are cut, with a hyphen. */

typedef enum { LEFT, RIGHT, CENTRE, BOTH } style;

typedef struct {
    int width;
    int indent;
    int first;
    style how;
    int numbered;
} format;

static format now = { 24, 0, 0, LEFT, 0 };
static char words[MAX_WIDTH][MAX_WORD + 1];
static int count;
static int used;
static int line_of_paragraph;
static int lines;

static int room(void)
{
    int taken = now.indent + (line_of_paragraph == 0 ? now.first : 0);
    return now.width - taken;
}

static void blanks(int n)
{
    while (n-- > 0)
        putchar(' ');
}

static void begin_line(void)
{
    lines++;
    if (now.numbered)
        printf("%3d ", lines);
    blanks(now.indent + (line_of_paragraph == 0 ? now.first : 0));
}

/* Writes the words that are held; what is left over goes between them. */
static void flush_line(int last)
{
    int left = room() - used;
    int gaps = count - 1;
    int i;
    if (count == 0)
        return;
    begin_line();
    if (now.how == RIGHT)
        blanks(left);
    else if (now.how == CENTRE)
        blanks(left / 2);
    for (i = 0; i < count; i++) {
        printf("%s", words[i]);
        if (i < gaps) {
            putchar(' ');
            if (now.how == BOTH && !last)
                blanks(left / gaps + (i < left % gaps));
        }
    }
    putchar('\n');
    count = 0;
    used = 0;
    line_of_paragraph++;
}

static void end_paragraph(void)
{
    flush_line(1);
    line_of_paragraph = 0;
}

static void hold(const char *word)
{
    int n = (int)strlen(word);
    if (count > 0 && used + 1 + n > room())
        flush_line(0);
    used += n + (count > 0 ? 1 : 0);
    strcpy(words[count++], word);
}

/* A word that no line has room for is cut in pieces. */
static void add_word(const char *word)
{
    char piece[MAX_WORD + 1];
    int n = (int)strlen(word);
    int most;
    while (n > room()) {
        flush_line(0);
        most = room() - 1;
        if (n <= most + 1)
            break;
        memcpy(piece, word, most);
        piece[most] = '-';
        piece[most + 1] = '\0';
        hold(piece);
        flush_line(0);
        word += most;
        n -= most;
    }
    if (n > 0)
        hold(word);
}

static void add_text(const char *text)
{
    char word[MAX_WORD + 1];
    int n = 0;
    for (;; text++) {
        if (*text && !isspace((unsigned char)*text)) {
            if (n < MAX_WORD)
                word[n++] = *text;
            continue;
        }
        if (n > 0) {
            word[n] = '\0';
            add_word(word);
            n = 0;
        }
        if (*text == '\0')
            break;
    }
}

static int in_range(int n, int least, int most)
{
    if (n < least)
        return least;
    return n > most ? most : n;
}

static void set_width(int n)
{
    now.width = in_range(n, 8, MAX_WIDTH);
    now.indent = in_range(now.indent, 0, now.width - 6);
    now.first = in_range(now.first, -now.indent, now.width - now.indent - 4);
}

static void title(const char *text)
{
    char upper[MAX_WIDTH + 1];
    int n = 0;
    while (*text && *text != '\n' && n < now.width)
        upper[n++] = (char)toupper((unsigned char)*text++);
    upper[n] = '\0';
    lines++;
    blanks((now.width - n) / 2);
    puts(upper);
}

static void command(const char *text)
{
    int n = atoi(text + 2);
    if (text[1] != 'n')
        end_paragraph();
    switch (text[1]) {
    case 'w':
        set_width(n);
        break;
    case 'i':
        now.indent = in_range(n, 0, now.width - 6);
        now.first = in_range(now.first, -now.indent, now.width - now.indent - 4);
        break;
    case 'p':
        now.first = in_range(n, -now.indent, now.width - now.indent - 4);
        break;
    case 'j':
        now.how = BOTH;
        break;
    case 'l':
        now.how = LEFT;
        break;
    case 'c':
        now.how = CENTRE;
        break;
    case 'r':
        now.how = RIGHT;
        break;
    case 'n':
        now.numbered = !now.numbered;
        break;
    case 't':
        title(text[2] == ' ' ? text + 3 : text + 2);
        break;
    case 'b':
        break;
    default:
        printf("?%s", text);
    }
}

int main(void)
{
    char line[MAX_LINE];
    while (fgets(line, sizeof line, stdin) != NULL) {
        if (line[0] == '.')
            command(line);
        else if (line[0] == '\n')
            end_paragraph();
        else
            add_text(line);
    }
    end_paragraph();
    printf("%d lines\n", lines);
    return 0;
}
