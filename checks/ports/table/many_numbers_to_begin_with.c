/* What memory as bytes begins with is one string of the text, where it is long. */
#include <stdio.h>
union both { unsigned n; unsigned char bytes[4]; };
static union both all[1300] = { [0 ... 599] = { 0x81828384u }, [600 ... 1099] = { 0x3f5c2200u }, [1299] = { 4294967295u } };
static const char *last = "end";
int main(void)
{
    unsigned sum = 0, low = 0;
    int i;
    for (i = 0; i < 1300; i++) { sum = sum * 31 + all[i].n; low += all[i].bytes[0]; }
    printf("%u %u %d %d %d %s\n", sum, low, all[0].bytes[3], all[700].bytes[1], all[1299].bytes[2], last);
    return 0;
}
/* memory bytes */
/* writes
2074809855 79455 129 34 255 end
status 0 */
