#include <signal.h>
#include <stdio.h>
#include <stdlib.h>
#include <unistd.h>
int never(void) { return fork(); }
int (*table_of_nobody[])(void) = { never };
int by_nobody_but_itself(int x) { return x ? by_nobody_but_itself(x - 1) : (int)getpgid(0); }
_Complex double complex_of_nobody;
void machine(void) { __asm__("nop"); }
__attribute__((vector_size(16)))
int vector_of_nobody;
struct kept { int a; enum { ONE = 1, TWO } k; } with_a_tag;
static int by_table(int x) { return x + 1; }
int (*handlers[])(int) = { by_table };
int by_size[7];
int by_type;
static void at_end(void) { puts("end"); }
static void on_signal(int n) { printf("signal %d\n", n); }
__attribute__((constructor)) static void first(void) { puts("first"); }
static void freed(int *it) { printf("left %d\n", *it); }
int index_of(void) { return fork(); }
int size(int x) { return x * 2; }
int local(int size) { int index_of = size; struct { int never; } s = { .never = 1 }; return index_of + s.never; }
int by_prototype(int x) { int (*called)(int by_table) = size; return called(by_table(x)); }
static int behind_alias(int x) { return x + 4; }
int other_name(int) __attribute__((alias("behind_alias")));
int tentative;
int tentative;
int pointed = 9;
int *pointer = &pointed;
int in_block = 6;
static int old(a) int a; { return a * 3; }
int memcmp(const void *a, const void *b, size_t n) { return 11; }
int main(void)
{
    extern int in_block, declared_alone;
    __typeof__(by_type) t = 3;
    struct kept k = { 5, TWO };
    static int (*kept_inside)(int) = local;
    __attribute__((cleanup(freed))) int held = 8;
    int outer = 4;
    int nested(int x) { return x + outer; }
    atexit(at_end);
    signal(SIGINT, on_signal);
    raise(SIGINT);
    printf("%d %d %d %d %d\n", handlers[0](1), (int)(sizeof by_size / sizeof by_size[0]), t, k.a, k.k);
    printf("%d %d %d %d %d\n", kept_inside(3), by_prototype(1), other_name(1), *pointer, nested(3));
    printf("%d %d %d\n", _Generic(tentative, int: 1, default: 2), ({ int in_block = 2; in_block + old(5); }) + in_block, __builtin_memcmp("a", "b", outer));
    return 0;
}
/* writes
first
signal 2
2 7 3 5 2
4 4 5 9 7
1 23 11
left 8
end
status 0 */
