#include <ctype.h>
#include <stdio.h>
#include <stdlib.h>
#include <string.h>

#define COLUMNS 7
#define ROWS 6
#define FOUR 4

/* Four in a row. A line of the input is a game: the columns, from a to g, into which
 * X and O drop their stones in turn. `?` asks for a move of who is on, by rules:
 * win, else hinder, else what makes the longest row, else the middle. `<` takes a
 * move back. The board is written at the end of each game. */

typedef enum { EMPTY, CROSS, RING } stone;

typedef struct {
    stone cells[ROWS][COLUMNS];
    int height[COLUMNS];
    int moves[ROWS * COLUMNS];
    int count;
    stone turn;
    stone winner;
} game;

typedef struct {
    int down;
    int right;
} direction;

static const direction directions[4] = { { 0, 1 }, { 1, 0 }, { 1, 1 }, { 1, -1 } };
static int wins[3];

static stone other(stone s)
{
    return s == CROSS ? RING : CROSS;
}

static char sign(stone s)
{
    static const char signs[] = ".XO";
    return signs[s];
}

static int inside(int row, int column)
{
    return row >= 0 && row < ROWS && column >= 0 && column < COLUMNS;
}

/* How many stones of a kind stand side by side from a place on, in a direction. */
static int side(const game *g, int row, int column, int down, int right, stone s)
{
    int n = 0;
    row += down;
    column += right;
    while (inside(row, column) && g->cells[row][column] == s) {
        n++;
        row += down;
        column += right;
    }
    return n;
}

static int longest(const game *g, int row, int column, stone s)
{
    int best = 0;
    int i;
    for (i = 0; i < 4; i++) {
        direction d = directions[i];
        int n = 1 + side(g, row, column, d.down, d.right, s) + side(g, row, column, -d.down, -d.right, s);
        if (n > best)
            best = n;
    }
    return best;
}

static int is_open(const game *g, int column)
{
    return column >= 0 && column < COLUMNS && g->height[column] < ROWS;
}

static void drop(game *g, int column)
{
    int row = g->height[column]++;
    g->cells[row][column] = g->turn;
    g->moves[g->count++] = column;
    if (longest(g, row, column, g->turn) >= FOUR)
        g->winner = g->turn;
    g->turn = other(g->turn);
}

static void take_back(game *g)
{
    int column;
    if (g->count == 0)
        return;
    column = g->moves[--g->count];
    g->height[column]--;
    g->cells[g->height[column]][column] = EMPTY;
    g->winner = EMPTY;
    g->turn = other(g->turn);
}

static int winning(const game *g, stone s)
{
    int column;
    for (column = 0; column < COLUMNS; column++)
        if (is_open(g, column) && longest(g, g->height[column], column, s) >= FOUR)
            return column;
    return -1;
}

static int distance(int column)
{
    return abs(column - COLUMNS / 2);
}

static int advice(const game *g)
{
    int best = -1;
    int best_length = 0;
    int column = winning(g, g->turn);
    if (column >= 0)
        return column;
    column = winning(g, other(g->turn));
    if (column >= 0)
        return column;
    for (column = 0; column < COLUMNS; column++) {
        int length;
        if (!is_open(g, column))
            continue;
        length = longest(g, g->height[column], column, g->turn);
        if (length > best_length || (length == best_length && distance(column) < distance(best))) {
            best = column;
            best_length = length;
        }
    }
    return best;
}

static void write_board(const game *g)
{
    int row, column;
    for (row = ROWS - 1; row >= 0; row--) {
        for (column = 0; column < COLUMNS; column++)
            putchar(sign(g->cells[row][column]));
        putchar('\n');
    }
}

static void play(const char *line, int number)
{
    game g;
    const char *at;
    int refused = 0;
    memset(&g, 0, sizeof g);
    g.turn = CROSS;
    for (at = line; *at && *at != '\n'; at++) {
        int column = tolower((unsigned char)*at) - 'a';
        if (*at == '<') {
            take_back(&g);
            continue;
        }
        if (g.winner != EMPTY) {
            refused++;
            continue;
        }
        if (*at == '?') {
            column = advice(&g);
            if (column < 0) {
                puts("no move");
                continue;
            }
            printf("%c ", 'a' + column);
        }
        if (!is_open(&g, column)) {
            refused++;
            continue;
        }
        drop(&g, column);
    }
    putchar('\n');
    write_board(&g);
    wins[g.winner]++;
    if (g.winner != EMPTY)
        printf("game %d: %c wins after %d moves", number, sign(g.winner), g.count);
    else
        printf("game %d: %s after %d moves", number, g.count == ROWS * COLUMNS ? "drawn" : "open", g.count);
    printf(", %d refused\n", refused);
}

int main(void)
{
    char line[100];
    int number = 0;
    while (fgets(line, sizeof line, stdin) != NULL)
        play(line, ++number);
    printf("X %d, O %d, none %d\n", wins[CROSS], wins[RING], wins[EMPTY]);
    return 0;
}
