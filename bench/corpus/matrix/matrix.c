#include <stdio.h>
#include <stdlib.h>
#include <assert.h>
#define NAMES 6
#define MOST 5
#define GREATEST 100000

/* Calculates with matrices of whole numbers. Commands, each on a line:
 *
 *   X RxC n n ..     X, a letter from A to F, becomes a matrix of R rows and C columns
 *   + X Y Z          Z becomes X + Y         * X Y Z    Z becomes X times Y
 *   t X Z            Z becomes X turned      d X        the determinant of X
 *   p X              writes X                s X        the saddle points of X
 *   e X Z            Z becomes X in echelon form, by whole steps
 *   m X Z            X gets the name Z, and its own is free then
 */

struct matrix {
    int rows;
    int columns;
    int *cells;
};

struct matrix *matrices[NAMES];
int next;
int line;
int errors;

void advance(void)
{
    next = getchar();
}

void complain(char *what)
{
    printf("line %d: %s\n", line, what);
    errors++;
}

struct matrix *new_matrix(int rows, int columns)
{
    int i;
    struct matrix *m = malloc(sizeof(struct matrix));
    if (m == NULL)
        exit(3);
    m->rows = rows;
    m->columns = columns;
    m->cells = malloc(rows * columns * sizeof(int));
    if (m->cells == NULL)
        exit(3);
    for (i = 0; i < rows * columns; i++)
        m->cells[i] = 0;
    return m;
}

void let_go(struct matrix *m)
{
    if (m == NULL)
        return;
    free(m->cells);
    free(m);
}

int get(struct matrix *m, int row, int column)
{
    assert(row >= 0 && row < m->rows);
    return m->cells[row * m->columns + column];
}

void set(struct matrix *m, int row, int column, int value)
{
    m->cells[row * m->columns + column] = value;
}

void skip_blanks(void)
{
    while (next == ' ')
        advance();
}

int number(void)
{
    int n = 0;
    int negative = 0;
    skip_blanks();
    if (next == '-') {
        negative = 1;
        advance();
    }
    while (next >= '0' && next <= '9') {
        if (n < 1000)
            n = 10 * n + (next - '0');
        advance();
    }
    return negative ? -n : n;
}

/* The place of a name, or -1. */
int name(void)
{
    int place = -1;
    skip_blanks();
    if (next >= 'A' && next < 'A' + NAMES)
        place = next - 'A';
    if (next != '\n' && next != EOF)
        advance();
    return place;
}

void keep(int place, struct matrix *m)
{
    let_go(matrices[place]);
    matrices[place] = m;
}

void read_matrix(int place)
{
    int rows = number();
    int columns;
    int i;
    struct matrix *m;
    if (next == 'x')
        advance();
    columns = number();
    if (rows < 1 || rows > MOST || columns < 1 || columns > MOST) {
        complain("a bad size");
        return;
    }
    m = new_matrix(rows, columns);
    for (i = 0; i < rows * columns; i++)
        m->cells[i] = number();
    keep(place, m);
}

int in_range(int n)
{
    return n <= GREATEST && n >= -GREATEST;
}

struct matrix *sum(struct matrix *a, struct matrix *b)
{
    struct matrix *m;
    int i;
    if (a->rows != b->rows || a->columns != b->columns) {
        complain("sizes differ");
        return NULL;
    }
    m = new_matrix(a->rows, a->columns);
    for (i = 0; i < a->rows * a->columns; i++)
        m->cells[i] = (a->cells[i] + b->cells[i]) % GREATEST;
    return m;
}

struct matrix *product(struct matrix *a, struct matrix *b)
{
    struct matrix *m;
    int i;
    int j;
    int k;
    int total;
    if (a->columns != b->rows) {
        complain("sizes don't fit");
        return NULL;
    }
    m = new_matrix(a->rows, b->columns);
    for (i = 0; i < a->rows; i++)
        for (j = 0; j < b->columns; j++) {
            total = 0;
            for (k = 0; k < a->columns; k++)
                total += (get(a, i, k) % 1000) * (get(b, k, j) % 1000);
            set(m, i, j, total % GREATEST);
        }
    return m;
}

struct matrix *turned(struct matrix *a)
{
    struct matrix *m = new_matrix(a->columns, a->rows);
    int i;
    int j;
    for (i = 0; i < a->rows; i++)
        for (j = 0; j < a->columns; j++)
            set(m, j, i, get(a, i, j));
    return m;
}

struct matrix *minor_of(struct matrix *a, int column)
{
    struct matrix *m = new_matrix(a->rows - 1, a->columns - 1);
    int i;
    int j;
    for (i = 1; i < a->rows; i++)
        for (j = 0; j < a->columns; j++)
            if (j != column)
                set(m, i - 1, j > column ? j - 1 : j, get(a, i, j));
    return m;
}

int determinant(struct matrix *a)
{
    struct matrix *part;
    int total = 0;
    int j;
    int sign = 1;
    if (a->rows == 1)
        return get(a, 0, 0) % 1000;
    for (j = 0; j < a->columns; j++) {
        if (get(a, 0, j) != 0) {
            part = minor_of(a, j);
            total += sign * (get(a, 0, j) % 1000) * (determinant(part) % 10000);
            let_go(part);
        }
        sign = -sign;
    }
    return total;
}

/* Places that are the least of their row and the greatest of their column. */
void saddles(struct matrix *a)
{
    int i;
    int j;
    int k;
    int is_one;
    int found = 0;
    for (i = 0; i < a->rows; i++)
        for (j = 0; j < a->columns; j++) {
            is_one = 1;
            for (k = 0; k < a->columns; k++)
                if (get(a, i, k) < get(a, i, j))
                    is_one = 0;
            for (k = 0; k < a->rows; k++)
                if (get(a, k, j) > get(a, i, j))
                    is_one = 0;
            if (is_one) {
                printf("(%d,%d)=%d ", i, j, get(a, i, j));
                found++;
            }
        }
    printf("%d found\n", found);
}

void swap_rows(struct matrix *m, int a, int b)
{
    int j;
    int held;
    for (j = 0; j < m->columns; j++) {
        held = get(m, a, j);
        set(m, a, j, get(m, b, j));
        set(m, b, j, held);
    }
}

struct matrix *echelon(struct matrix *a)
{
    struct matrix *m = new_matrix(a->rows, a->columns);
    int row = 0;
    int column;
    int i;
    int j;
    int up;
    int low;
    for (i = 0; i < a->rows * a->columns; i++)
        m->cells[i] = a->cells[i] % 100;
    for (column = 0; column < m->columns && row < m->rows; column++) {
        for (i = row; i < m->rows && get(m, i, column) == 0; i++)
            ;
        if (i == m->rows)
            continue;
        if (i != row)
            swap_rows(m, i, row);
        for (i = row + 1; i < m->rows; i++) {
            up = get(m, row, column);
            low = get(m, i, column);
            for (j = 0; j < m->columns; j++)
                set(m, i, j, (get(m, i, j) * up - get(m, row, j) * low) % 1000);
        }
        row++;
    }
    return m;
}

void write_matrix(struct matrix *m)
{
    int i;
    int j;
    for (i = 0; i < m->rows; i++)
        for (j = 0; j < m->columns; j++)
            printf("%d%c", get(m, i, j), j == m->columns - 1 ? '\n' : ' ');
}

void command(int letter)
{
    int first = name();
    int second = -1;
    int target;
    struct matrix *result = NULL;
    if (first < 0 || matrices[first] == NULL) {
        complain("no such matrix");
        return;
    }
    if (letter == 'p') {
        write_matrix(matrices[first]);
        return;
    }
    if (letter == 's') {
        saddles(matrices[first]);
        return;
    }
    if (letter == 'd') {
        if (matrices[first]->rows != matrices[first]->columns)
            complain("not square");
        else
            printf("%d\n", determinant(matrices[first]));
        return;
    }
    if (letter == '+' || letter == '*') {
        second = name();
        if (second < 0 || matrices[second] == NULL) {
            complain("no such matrix");
            return;
        }
    }
    target = name();
    if (target < 0) {
        complain("no target");
        return;
    }
    if (letter == 'm') {
        if (target == first) {
            complain("the same name");
            return;
        }
        keep(target, matrices[first]);
        matrices[first] = NULL;
        return;
    }
    if (letter == '+')
        result = sum(matrices[first], matrices[second]);
    else if (letter == '*')
        result = product(matrices[first], matrices[second]);
    else if (letter == 't')
        result = turned(matrices[first]);
    else if (letter == 'e')
        result = echelon(matrices[first]);
    else
        complain("no such command");
    if (result != NULL)
        keep(target, result);
}

int main(void)
{
    int letter;
    int i;
    advance();
    while (next != EOF) {
        line++;
        letter = next;
        if (next != '\n')
            advance();
        if (letter >= 'A' && letter < 'A' + NAMES)
            read_matrix(letter - 'A');
        else if (letter != '\n')
            command(letter);
        while (next != '\n' && next != EOF)
            advance();
        advance();
    }
    for (i = 0; i < NAMES; i++)
        let_go(matrices[i]);
    printf("%d lines %d errors\n", line, errors);
    return 0;
}
