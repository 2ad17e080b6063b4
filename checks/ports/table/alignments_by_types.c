#include <stdint.h>
#include <stdio.h>
typedef struct { char c; } wide __attribute__((aligned(32)));
enum { SIXTEEN = 16 };
_Alignas(int) char first[5];
_Alignas(wide) char second[3];
_Alignas(2 * SIXTEEN) static char third[3];
struct s { char a; _Alignas(int) char b; _Alignas(sizeof(short)) char c; char d; _Alignas(void *) char e; };
static char fourth[3] __attribute__((aligned(sizeof(int) * 16)));
int off(void *p, int by) { return (int)((uintptr_t)p % by); }
int main(void)
{
    _Alignas(long) char fifth[6];
    _Alignas(char) _Alignas(wide) _Alignas(8) int sixth = 4;
    _Alignas(0) int seventh = 5;
    printf("%d %d %d %d %d %d\n", off(first, 4), off(second, 32), off(third, 32), off(fourth, 64), off(fifth, 4), off(&sixth, 32));
    printf("%d %d %d %d %d\n", (int)sizeof(struct s), (int)__builtin_offsetof(struct s, b), (int)__builtin_offsetof(struct s, c), (int)__builtin_offsetof(struct s, d),
           (int)__builtin_offsetof(struct s, e));
    printf("%d %d %d %d\n", sixth + seventh, (int)_Alignof(sixth), (int)_Alignof(third), (int)_Alignof(wide));
    return 0;
}
/* writes
0 0 0 0 0 0
12 4 6 7 8
9 32 32 32
status 0 */
