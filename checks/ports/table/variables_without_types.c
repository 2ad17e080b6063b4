int printf(const char *, ...);
/* C90 6.5.2 lets the int be left out, also outside functions. */
first, second = 2;
struct pair { int a, b; } pair = { 3, 4 };
enum word { NO, YES } word = YES;
row[3] = { 5, 6, 7 };
int sum(a, b) int a; { return a + b; }
_Alignas(16) last;
const fixed = 10;
volatile shaky, *at = &shaky;
int static behind = 11;
struct pair const two = { 12, 13 };
unsigned char const static small = 200;
long const twice(const n, volatile const m) { return n + m; }
main()
{
    const inner = 14;
    register quick = 15;
    auto volatile slow = 16;
    int *const kept = &second;
    for (register i = 0; i < 2; i++)
        shaky += i;
    printf("%d %d %d %d %d %d %d %d %d %ld\n", fixed, *at, behind, two.b, small, inner, quick, slow, *kept, twice(8, 9));
    first = 1;
    last = 8;
    printf("%d %d %d %d %d %d %d\n", first, second, pair.b, word, row[2], last, sum(first, last));
    return 0;
}
/* writes
10 1 11 13 200 14 15 16 2 17
1 2 4 1 7 8 9
status 0 */
