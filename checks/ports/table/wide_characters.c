#include <stddef.h>
#include <stdio.h>
wchar_t g[] = L"a\xe9" "\u20ac";
wchar_t first = L'é';
int main(void)
{
    const wchar_t *p = L"aé€" L"z";
    printf("%d %d %d %d %d\n", (int)g[0], (int)g[1], (int)g[2], (int)g[3], (int)(sizeof g / sizeof *g));
    printf("%d %d\n", (int)first, (int)L'\x1234');
    while (*p)
        printf("%d ", (int)*p++);
    printf("%d\n", (int)sizeof(L"ab" "c"));
    return 0;
}
/* writes
97 233 8364 0 4
233 4660
97 233 8364 122 16
status 0 */
