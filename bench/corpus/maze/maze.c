#include <stdio.h>
#include <stdlib.h>
#define WIDE 20
#define HIGH 12
#define ROOM 1000
#define KEYS 3

/* Finds the shortest way through mazes. A maze is some lines of `#` (wall),
 * `.` (free), S (start), T (target), a to c (keys), A to C (doors, which open
 * with their key), 1 to 9 (a place that costs so many steps more) and `~` (a
 * place that may be entered from the left and from above alone). An empty line
 * ends it. The way is found by a search over place and keys. */

struct state {
    int row;
    int column;
    int keys;
    int cost;
    int from;
    int done;
};

char maze[HIGH][WIDE];
int rows;
int columns;
struct state *states;
int count;
int number;

int read_maze(void)
{
    int c = getchar();
    int column = 0;
    rows = 0;
    columns = 0;
    while (c == '\n')
        c = getchar();
    if (c == EOF)
        return 0;
    while (c != EOF) {
        if (c == '\n') {
            if (column == 0)
                return 1;
            if (column > columns)
                columns = column;
            for (; column < WIDE && rows < HIGH; column++)
                maze[rows][column] = '#';
            rows++;
            column = 0;
        } else {
            if (rows < HIGH && column < WIDE)
                maze[rows][column] = c;
            column++;
        }
        c = getchar();
    }
    return 1;
}

int is_wall(int row, int column)
{
    if (row < 0 || row >= rows || column < 0 || column >= columns)
        return 1;
    return maze[row][column] == '#';
}

int bit(int key)
{
    return 1 << key;
}

/* A door opens where its key is held. */
int may_enter(int row, int column, int keys)
{
    int c;
    if (is_wall(row, column))
        return 0;
    c = maze[row][column];
    if (c >= 'A' && c < 'A' + KEYS)
        return (keys & bit(c - 'A')) != 0;
    return 1;
}

int cost_of(int row, int column)
{
    int c = maze[row][column];
    if (c >= '1' && c <= '9')
        return 1 + (c - '0');
    return 1;
}

int keys_at(int row, int column, int keys)
{
    int c = maze[row][column];
    if (c >= 'a' && c < 'a' + KEYS)
        return keys | bit(c - 'a');
    return keys;
}

/* The state of a place and keys, or -1. */
int known(int row, int column, int keys)
{
    int i;
    for (i = 0; i < count; i++)
        if (states[i].row == row && states[i].column == column && states[i].keys == keys)
            return i;
    return -1;
}

void reach(int row, int column, int keys, int cost, int from)
{
    int place;
    keys = keys_at(row, column, keys);
    place = known(row, column, keys);
    if (place < 0) {
        if (count == ROOM)
            return;
        place = count;
        count++;
        states[place].row = row;
        states[place].column = column;
        states[place].keys = keys;
        states[place].done = 0;
        states[place].cost = cost;
        states[place].from = from;
    } else if (!states[place].done && cost < states[place].cost) {
        states[place].cost = cost;
        states[place].from = from;
    }
}

/* The cheapest state that isn't done yet, or -1. */
int cheapest(void)
{
    int i;
    int best = -1;
    for (i = 0; i < count; i++)
        if (!states[i].done && (best < 0 || states[i].cost < states[best].cost))
            best = i;
    return best;
}

void go(int at, int down, int right)
{
    int row = states[at].row + down;
    int column = states[at].column + right;
    if (!may_enter(row, column, states[at].keys))
        return;
    if (maze[row][column] == '~' && (down < 0 || right < 0))
        return;
    reach(row, column, states[at].keys, states[at].cost + cost_of(row, column), at);
}

int find(int letter, int *row, int *column)
{
    for (*row = 0; *row < rows; (*row)++)
        for (*column = 0; *column < columns; (*column)++)
            if (maze[*row][*column] == letter)
                return 1;
    return 0;
}

/* The state in which the target is reached first, or -1. */
int search(int row, int column)
{
    int at;
    count = 0;
    reach(row, column, 0, 0, -1);
    at = cheapest();
    while (at >= 0) {
        if (maze[states[at].row][states[at].column] == 'T')
            return at;
        states[at].done = 1;
        go(at, 0, 1);
        go(at, 1, 0);
        go(at, 0, -1);
        go(at, -1, 0);
        at = cheapest();
    }
    return -1;
}

void show(int end)
{
    int at;
    int row;
    int column;
    int length = 0;
    for (at = states[end].from; at >= 0; at = states[at].from) {
        row = states[at].row;
        column = states[at].column;
        if (maze[row][column] == '.')
            maze[row][column] = '+';
        length++;
    }
    for (row = 0; row < rows; row++) {
        for (column = 0; column < columns; column++)
            putchar(maze[row][column]);
        putchar('\n');
    }
    printf("%d steps, cost %d, keys %d\n", length, states[end].cost, states[end].keys);
}

void solve(void)
{
    int row;
    int column;
    int end;
    number++;
    printf("maze %d: ", number);
    if (rows > HIGH || columns > WIDE) {
        puts("too large");
        return;
    }
    if (!find('T', &row, &column) || !find('S', &row, &column)) {
        puts("no start or no target");
        return;
    }
    end = search(row, column);
    if (end < 0)
        printf("no way, %d looked at\n", count);
    else
        show(end);
}

int main(void)
{
    states = malloc(ROOM * sizeof(struct state));
    if (states == NULL)
        return 3;
    while (read_maze())
        solve();
    free(states);
    printf("%d mazes\n", number);
    return 0;
}
