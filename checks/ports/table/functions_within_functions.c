#include <stdio.h>
#include <stdlib.h>
/* GNU C's functions within functions: by name, by pointer, one within another, beside calls of the function around them. */
static int total(int *row, int count)
{
    int sum = 0, seen[4] = { 0 };
    void add(int n) { sum += n; seen[n & 3]++; }
    for (int i = 0; i < count; i++)
        add(row[i]);
    return 100 * sum + 10 * seen[1] + seen[2] + (int)(sizeof seen / sizeof seen[0]);
}
static void sort(int *row, int count, int down)
{
    int asked = 0;
    int compare(const void *a, const void *b)
    {
        int x = *(const int *)a, y = *(const int *)b;
        asked++;
        return down ? (x < y) - (x > y) : (x > y) - (x < y);
    }
    qsort(row, count, sizeof *row, compare);
    printf("%d: ", asked > 0);
    for (int i = 0; i < count; i++)
        printf("%d ", row[i]);
    puts("");
}
static int deep(int n)
{
    int own = n;
    int outer(int k)
    {
        int mine = k * 2;
        int inner(void) { own++; return mine + own; }
        return k > 3 ? outer(k - 1) + inner() : inner();
    }
    return n > 0 ? deep(n - 1) + outer(n + 2) * 10 + own : own;
}
static int matrix(int rows, int columns)
{
    int cells[rows * columns];
    int *at(int r, int c) { return &cells[r * columns + c]; }
    for (int r = 0; r < rows; r++)
        for (int c = 0; c < columns; c++)
            *at(r, c) = 10 * r + c;
    return *at(rows - 1, columns - 1);
}
struct pair { int a; char b; };
static int later(int n)
{
    auto int odd(int);
    int even(int k) { return k == 0 ? n : odd(k - 1); }
    int odd(int k) { return k == 0 ? -n : even(k - 1); }
    struct pair held = { 1, 'x' };
    struct pair changed(int a) { held.a += a; return held; }
    changed(4);
    return even(6) + odd(3) * 10 + changed(2).a * 100 + ({ int more(int k) { return k + n; } more(7); });
}
static int kept(void)
{
    static int count = 5;
    int next(void) { return ++count; }
    int (*by_pointer)(void) = &next;
    next();
    { int count = 50; count += by_pointer(); if (count != 57) return 0; }
    return (count > 6 ? next : NULL)();
}
static int old(n, by) int n; char by;
{
    int row[n];
    int at(i, more) { return row[i] + more * by; }
    int length(int count[++n]) { return sizeof *count * n; }
    row[1] = 40;
    return at(1, 2) + length(row);
}
int main(void)
{
    int row[5] = { 3, 1, 2, 5, 9 };
    int twice(int k) { return k * row[0]; }
    printf("%d %d\n", total(row, 5), twice(4));
    sort(row, 5, 0);
    sort(row, 5, 1);
    printf("%d %d\n", deep(2), matrix(3, 4));
    printf("%d\n", later(2));
    printf("%d\n", kept());
    printf("%d\n", kept());
    printf("%d\n", old(2, 3));
    return twice(2);
}
/* writes
2035 12
1: 1 2 3 5 9 
1: 9 5 3 2 1 
296 23
731
8
0
58
status 18 */
