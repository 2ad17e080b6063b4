#include <stddef.h>
#include <stdio.h>
struct one { char a; int b __attribute__((packed)); short c; };
struct two { char a; int b; } __attribute__((aligned(16)));
struct three { char a; char b __attribute__((aligned(8))); struct two t; };
struct __attribute__((packed)) four { char a; int b; long long c; };
struct five { char a; unsigned b : 20 __attribute__((packed)); unsigned c : 9; };
#pragma pack(push, 2)
struct six { char a; int b; short c; long long d; };
#pragma pack(pop)
struct seven { char a; long long b; };
typedef struct { short s; int i; } __attribute__((packed, aligned(4))) eight;
struct one one = { 1, 2, 3 };
struct three three[2];
int main(void)
{
    struct four four = { 4, 5, 6 };
    struct six six;
    unsigned char *p = (unsigned char *)&four;
    printf("%d %d %d\n", (int)sizeof(struct one), (int)offsetof(struct one, b), (int)offsetof(struct one, c));
    printf("%d %d\n", (int)sizeof(struct two), (int)sizeof three);
    printf("%d %d\n", (int)offsetof(struct three, b), (int)offsetof(struct three, t));
    printf("%d %d %d\n", (int)sizeof(struct four), (int)offsetof(struct four, c), p[1]);
    printf("%d %d\n", (int)sizeof(struct five), (int)sizeof(struct seven));
    printf("%d %d %d\n", (int)sizeof six, (int)offsetof(struct six, b), (int)offsetof(struct six, d));
    printf("%d %d\n", (int)sizeof(eight), (int)offsetof(eight, i));
    one.b += 40;
    three[1].t.b = one.b;
    six.d = three[1].t.b;
    printf("%d %d %lld\n", one.b, one.c, six.d);
    return 0;
}
/* writes
8 1 6
16 64
8 16
13 5 5
8 12
16 2 8
8 2
42 3 42
status 0 */
