#include <stdio.h>
#include <stdlib.h>
#define COLUMNS 8
#define ROWS 20
#define WIDTH 16

/* Reads a table of comma-separated values with a head, and writes it in
 * columns, with the sum of each column of numbers below. A field may stand in
 * quotes, where commas and newlines are its own and "" is a quote. A row with
 * fewer fields than the head is filled up, one with more is told.
 * The first line says by which column the rows are sorted, -2 for the second
 * one from the greatest down, and 0 for no order. */

struct field {
    char text[WIDTH];
    int length;
    int number;
    int is_number;
};

struct field head[COLUMNS];
struct field table[ROWS][COLUMNS];
int row_at[ROWS];
int columns;
int rows;
int next;
int line;
int complaints;

void advance(void)
{
    if (next == '\n')
        line++;
    next = getchar();
}

void complain(char *what)
{
    printf("line %d: %s\n", line, what);
    complaints++;
}

void put(struct field *field, int c)
{
    if (field->length < WIDTH - 1) {
        field->text[field->length] = c;
        field->length++;
    }
}

/* Whether a field is a number, with a sign or none. */
void judge(struct field *field)
{
    int i = 0;
    int n = 0;
    int negative = field->text[0] == '-';
    field->is_number = 0;
    field->number = 0;
    if (negative)
        i = 1;
    if (field->text[i] == '\0' || field->length > 8)
        return;
    for (; field->text[i]; i++) {
        if (field->text[i] < '0' || field->text[i] > '9')
            return;
        n = 10 * n + (field->text[i] - '0');
    }
    field->is_number = 1;
    field->number = negative ? -n : n;
}

void read_quoted(struct field *field)
{
    advance();
    while (next != EOF) {
        if (next == '"') {
            advance();
            if (next != '"')
                return;
        }
        put(field, next == '\n' ? ' ' : next);
        advance();
    }
    complain("a quote without end");
}

void read_field(struct field *field)
{
    field->length = 0;
    while (next == ' ')
        advance();
    if (next == '"')
        read_quoted(field);
    while (next != ',' && next != '\n' && next != EOF) {
        if (next != ' ')
            put(field, next);
        advance();
    }
    field->text[field->length] = '\0';
    judge(field);
}

void skip_field(void)
{
    struct field none;
    read_field(&none);
}

/* Reads a line into fields; answers how many there were. */
int read_row(struct field *fields, int most)
{
    int n = 0;
    do {
        if (next == ',')
            advance();
        if (n < most)
            read_field(&fields[n]);
        else
            skip_field();
        n++;
    } while (next == ',');
    advance();
    return n;
}

void read_table(void)
{
    int n;
    int i;
    columns = read_row(head, COLUMNS);
    if (columns > COLUMNS) {
        complain("too many columns");
        columns = COLUMNS;
    }
    while (next != EOF && rows < ROWS) {
        n = read_row(table[rows], columns);
        if (n > columns)
            complain("more fields than columns");
        for (i = n; i < columns; i++) {
            table[rows][i].text[0] = '\0';
            table[rows][i].length = 0;
            table[rows][i].is_number = 0;
            table[rows][i].number = 0;
        }
        row_at[rows] = rows;
        rows++;
    }
}

int compared(struct field *a, struct field *b)
{
    int i = 0;
    if (a->is_number && b->is_number)
        return a->number < b->number ? -1 : a->number > b->number;
    if (a->is_number || b->is_number)
        return a->is_number ? -1 : 1;
    while (a->text[i] && a->text[i] == b->text[i])
        i++;
    return a->text[i] - b->text[i];
}

/* Rows with equal fields keep their order. */
void sort(int column, int down)
{
    int i;
    int j;
    int held;
    int way;
    for (i = 1; i < rows; i++) {
        held = row_at[i];
        for (j = i; j > 0; j--) {
            way = compared(&table[row_at[j - 1]][column], &table[held][column]);
            if (down ? way >= 0 : way <= 0)
                break;
            row_at[j] = row_at[j - 1];
        }
        row_at[j] = held;
    }
}

int width_of(int column)
{
    int i;
    int widest = head[column].length;
    for (i = 0; i < rows; i++)
        if (table[i][column].length > widest)
            widest = table[i][column].length;
    return widest;
}

void blanks(int n)
{
    for (; n > 0; n--)
        putchar(' ');
}

/* Numbers stand to the right, and all else to the left. */
void write_field(struct field *field, int width)
{
    if (field->is_number)
        blanks(width - field->length);
    printf("%s", field->text);
    if (!field->is_number)
        blanks(width - field->length);
    putchar('|');
}

int digits(int n)
{
    int count = n < 0 ? 2 : 1;
    while (n / 10 != 0) {
        n = n / 10;
        count++;
    }
    return count;
}

void write_sums(void)
{
    int column;
    int i;
    int sum;
    int numbers;
    for (column = 0; column < columns; column++) {
        sum = 0;
        numbers = 0;
        for (i = 0; i < rows; i++)
            if (table[i][column].is_number) {
                sum += table[i][column].number;
                numbers++;
            }
        if (numbers > 0) {
            blanks(width_of(column) - digits(sum));
            printf("%d|", sum);
        } else {
            blanks(width_of(column));
            putchar('|');
        }
    }
    putchar('\n');
}

void write_table(void)
{
    int i;
    int column;
    for (column = 0; column < columns; column++)
        write_field(&head[column], width_of(column));
    putchar('\n');
    for (i = 0; i < rows; i++) {
        for (column = 0; column < columns; column++)
            write_field(&table[row_at[i]][column], width_of(column));
        putchar('\n');
    }
}

int main(void)
{
    int by = 0;
    int down = 0;
    line = 1;
    next = getchar();
    if (next == '-') {
        down = 1;
        advance();
    }
    while (next >= '0' && next <= '9') {
        if (by < 100)
            by = 10 * by + (next - '0');
        advance();
    }
    while (next != '\n' && next != EOF)
        advance();
    advance();
    read_table();
    if (by > columns)
        complain("no such column");
    else if (by > 0)
        sort(by - 1, down);
    write_table();
    write_sums();
    printf("%d rows, %d complaints\n", rows, complaints);
    return 0;
}
