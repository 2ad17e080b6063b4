#include <stdio.h>
#include <stdlib.h>
#include <wchar.h>
/* The functions of <wchar.h> that are those of <string.h> for wide characters. */
static void show(const wchar_t *s) { printf("%ls|", s); }
static int sign(int n) { return (n > 0) - (n < 0); }
int main(void)
{
    wchar_t room[12] = L"abc", more[8], words[] = L" one,two , three", *state, *word, *made;
    int n;
    printf("%d %d %d\n", (int)wcslen(room), (int)wcsnlen(room, 2), (int)wcslen(L"\u00e4\U0001f600"));
    printf("%d %d %d %d\n", sign(wcscmp(L"a", L"b")), sign(wcscmp(L"b", L"a")), sign(wcscmp(L"\u00e4", L"z")), wcscmp(L"ab", L"ab"));
    printf("%d %d %d\n", wcsncmp(L"abc", L"abd", 2), sign(wcsncmp(L"abc", L"abd", 3)), wcsncmp(L"ab\0c", L"ab\0d", 4));
    show(wcscat(room, L"def"));
    show(wcsncat(room, L"ghi", 2));
    show(wcsncpy(more, L"xy", 4));
    printf("%d %d\n", more[2], more[3]);
    printf("%d %d\n", (int)(wcpcpy(more, L"pqr") - more), (int)(wcpncpy(more, L"pqr", 2) - more));
    printf("%d %d %d %d\n", (int)(wcschr(room, L'd') - room), (int)(wcsrchr(wcscpy(more, L"axbxc"), L'x') - more), wcschr(room, L'z') == NULL, (int)(wcschr(room, 0) - room));
    printf("%d %d %d %d\n", (int)wcsspn(room, L"cba"), (int)wcscspn(room, L"ed"), (int)(wcspbrk(room, L"gf") - room), (int)(wcsstr(room, L"cde") - room));
    for (word = wcstok(words, L", ", &state); word; word = wcstok(NULL, L", ", &state))
        show(word);
    printf("%d\n", wcsstr(room, L"ce") == NULL);
    made = wcsdup(L"made");
    show(made);
    free(made);
    for (n = 0; n < 8; n++)
        more[n] = L'0' + n;
    wmemmove(more + 1, more, 5);
    printf("%lc%lc%lc ", more[0], more[1], more[5]);
    wmemmove(more, more + 2, 5);
    wmemset(more + 5, L'-', 2);
    wmemcpy(room, more, 8);
    printf("%lc%lc%lc%lc %d %d %d\n", room[0], room[4], room[5], room[7], sign(wmemcmp(room, more, 8)), sign(wmemcmp(L"a\0b", L"a\0c", 3)), wmemchr(more, L'9', 8) == NULL);
    printf("%d %d %d %d\n", (int)btowc('a'), btowc(200) == WEOF, wctob(L'a'), wctob(0xe4));
    return 0;
}
/* writes
3 2 2
-1 1 1 0
0 -1 0
abcdef|abcdefgh|xy|0 0
3 2
3 3 1 8
3 3 5 2
one|two|three|1
made|004 16-7 0 -1 1
97 1 97 -1
status 0 */
