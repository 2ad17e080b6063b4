#include <errno.h>
#include <stddef.h>
#include <stdio.h>
static char room[64];
int main(void)
{
    wchar_t none[] = L"x", strange[] = { 'w', 233, 'x', 0 };
    int r, n = 3;
    r = printf("%ls|%lc|", L"wide", L'x');
    printf("%d\n", r);
    r = printf("a%lsb", strange);
    printf(" %d %d\n", r, errno == EILSEQ);
    r = printf("%.2ls|%5.1ls|%-6ls|%5lc|%-3lc|%S%C|%ls", L"abc", L"xyz", L"q", L'x', L'y', L"ab", L'd', none);
    printf("%d\n", r);
    r = printf("%ls|%.1ls|", (wchar_t *)NULL, strange);
    printf("%d\n", r);
    errno = ENOENT;
    r = printf("%m|%28m|%-28m|%.3m|", 1);
    printf("%d\n", r);
    r = printf("100%\n");
    printf("%d\n", r);
    r = printf("abc%");
    printf(" %d %d\n", r, errno == EINVAL);
    r = printf("%y %-+5.3y %ly|%#0 5y %'d %Id|%5%|%-5%|", 1234567, 5);
    printf(" %d\n", r);
    printf("%#.0o|%#o|%#.3o|%#5.0o|%#x|%#.0x|%#.0X|%.0d|\n", 0, 0, 8, 0, 0, 0, 0, 0);
    r = printf("[%99999999999d|", 5);
    printf(" %d %d\n", r, errno == EOVERFLOW);
    printf("%b %#b %B %#B %llb %012b %.5b %#.0b|\n", 5, 6, 7, 8, 9LL, 10, 3, 0);
    printf("%Ld %Lx %qd\n", 5000000000LL, 5000000000LL, 7LL);
    printf("%2$s %1$d%%\n", 5, "x");
    printf("%1$d %1$d %2$*3$d|%4$.*3$f|%5$-8s|\n", n, 7, n, 2.5, "ab");
    snprintf(room, sizeof room, "%3$c%2$c%1$c", 'a', 'b', 'c');
    puts(room);
    fprintf(stdout, "%2$s %1$s\n", "one", "two");
    return 0;
}
/* writes
wide|x|7
a -1 1
ab|    x|q     |    x|y  |abd|x31
(null)|w|9
No such file or directory|   No such file or directory|No such file or directory   |No |88
100%
5
abc -1 1
%y %+-5.3y %y|%# 05y 1234567 5|%|%| 35
0|0|010|    0|0||||
[ -1 1
101 0b110 111 0B1000 1001 000000001010 00011 |
5000000000 12a05f200 7
x 5%
3 3   7|2.500|ab      |
cba
two one
status 0 */
