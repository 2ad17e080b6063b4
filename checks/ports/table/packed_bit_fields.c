#include <stdio.h>
#include <string.h>
/* Where anything is said of how members are packed, a bit-field follows the one before it without a gap, also across its type's boundary. */
#pragma pack(push, 1)
struct a { unsigned x : 12; unsigned char y : 7; unsigned z : 28; unsigned : 0; short w : 4; };
#pragma pack(pop)
#pragma pack(push, 4)
struct b { char x : 6; char y : 6; int z : 25; long long w : 40; };
#pragma pack(pop)
struct __attribute__((packed)) c { unsigned char x : 5; unsigned char y : 5; short z; char w : 3; };
struct d { unsigned char x : 5; unsigned char y : 5; short z : 11; char w : 3; };
#define SHOW(t, m) { struct t v; unsigned char *p = (unsigned char *)&v; memset(&v, 0, sizeof v); v.m = -1; printf("%d:", (int)sizeof v); \
    for (int i = 0; i < (int)sizeof v; i++) printf("%02x", p[i]); puts(""); }
int main(void)
{
    SHOW(a, y) SHOW(a, z) SHOW(a, w)
    SHOW(b, y) SHOW(b, z) SHOW(b, w)
    SHOW(c, y) SHOW(c, z) SHOW(c, w)
    SHOW(d, y) SHOW(d, z) SHOW(d, w)
    return 0;
}
/* writes
9:00f007000000000000
9:0000f8ffff7f000000
9:00000000000000000f
12:c00f00000000000000000000
12:00f0ffff1f00000000000000
12:00000000e0ffffffff1f0000
5:e003000000
5:0000ffff00
5:0000000007
4:001f0000
4:0000ff07
4:00000038
status 0 */
