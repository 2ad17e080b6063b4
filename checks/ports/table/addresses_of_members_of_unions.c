#include <stdio.h>
union value { int number; char *text; };
static int set(int *to, int n) { *to = n; return n; }
int main(void)
{
    union value v, w;
    int *p = &v.number;
    unsigned char *bytes = (unsigned char *) &w.number;
    set(p, 77);
    w.number = 0x01020304;
    printf("%d %d\n", v.number, bytes[0]);
    v.text = "text";
    puts(v.text);
    return 0;
}
/* memory bytes */
/* writes
77 4
text
status 0 */
