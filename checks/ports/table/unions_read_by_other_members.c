#include <stdio.h>
/* No member of any of these is read but where another one was stored. */
union where { int *place; unsigned long number; };
union sign { float real; unsigned bits; };
union parts { unsigned whole; unsigned char bytes[4]; };
struct tagged { int kind; union { float real; unsigned bits; } as; };
static int words[4] __attribute__((aligned(16)));
static unsigned low(int *p) { union where w; w.place = p; return w.number & 15; }
static float magnitude(float f) { union sign s; s.real = f; s.bits = s.bits & 0x7fffffff; return s.real; }
static unsigned turned(unsigned n) { union parts p, q; int i; p.whole = n; for (i = 0; i < 4; i++) q.bytes[i] = p.bytes[3 - i]; return q.whole; }
static float negative(float f) { struct tagged t; t.kind = 0; t.as.real = f; t.as.bits ^= 0x80000000u; return t.as.real; }
int main(void)
{
    printf("%u %u %.2f %x %.2f\n", low(words), low(words + 1), magnitude(-1.5f), turned(0x01020304), negative(2.5f));
    return 0;
}
/* memory bytes */
/* writes
0 4 1.50 4030201 -2.50
status 0 */
