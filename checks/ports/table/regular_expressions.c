#include <regex.h>
#include <stdio.h>
#include <string.h>
struct tried { const char *form; int flags; const char *text; int how; };
static const struct tried table[] = {
    { "a\\(b*\\)c", 0, "xxabbbcx", 0 }, { "(a|ab)(c|bcd)(d*)", REG_EXTENDED, "abcd", 0 }, { "^[[:alpha:]_][[:alnum:]_]*$", REG_EXTENDED, "name_1", 0 },
    { "([0-9]{1,3})(\\.[0-9]{1,3}){3}", REG_EXTENDED, "host 127.0.0.1 up", 0 }, { "^b", REG_NEWLINE, "a\nbc\n", 0 }, { "c$", REG_EXTENDED, "a\nbc\n", 0 },
    { "ABC", REG_ICASE, "xxabcxx", 0 }, { "\\([a-c]\\)x\\1", 0, "bxc axa", 0 }, { "(a*)*", REG_EXTENDED, "aab", 0 }, { "(a*)+", REG_EXTENDED, "b", 0 },
    { "x*", REG_EXTENDED, "aaa", 0 }, { "(^|,)([^,]*)", REG_EXTENDED, "one,two", REG_NOTBOL }, { "*a\\|b", 0, "x*a", 0 }, { "a\\{2,3\\}", 0, "caaaa", 0 },
    { "\\<to\\>", 0, "onto to", 0 }, { "[]x-]+", REG_EXTENDED, "ab]-x]", 0 }, { "[^[:space:]]+$", REG_EXTENDED, "last word", 0 }, { "(a|b)*c|(a|ab)*c", REG_EXTENDED, "abc", 0 },
    { "a+?b", REG_EXTENDED, "aab", 0 }, { "((a)|b)+", REG_EXTENDED, "ab", 0 }, { "\\.c$", REG_NOSUB, "main.c", 0 }, { "()b", REG_EXTENDED, "ab", 0 },
    { "a{,2}b", REG_EXTENDED, "aaab", 0 }, { "(x)?(y)?z", REG_EXTENDED, "yz", 0 }, { "[[.a.]-[.c.]]*d", 0, "xabcd", 0 },
    { "(", REG_EXTENDED, "", 0 }, { "a)", REG_EXTENDED, "a)", 0 }, { "\\)", 0, "", 0 }, { "[a", 0, "", 0 }, { "[", 0, "", 0 }, { "*a", REG_EXTENDED, "", 0 }, { "a**", 0, "", 0 },
    { "a\\{1", 0, "", 0 }, { "a{2,1}", REG_EXTENDED, "", 0 }, { "[z-a]", 0, "", 0 }, { "[[:none:]]", 0, "", 0 }, { "\\", 0, "", 0 }, { "\\1(a)", REG_EXTENDED, "", 0 }, { "a{99999}", REG_EXTENDED, "", 0 } };
int main(void)
{
    unsigned n;
    for (n = 0; n < sizeof table / sizeof table[0]; n++) {
        regex_t re;
        regmatch_t m[5];
        char told[60];
        int k, code = regcomp(&re, table[n].form, table[n].flags);
        printf("%s:", table[n].form);
        if (code) {
            size_t length = regerror(code, &re, told, sizeof told);
            printf(" %s (%u)\n", told, (unsigned)length);
            continue;
        }
        memset(m, 0, sizeof m);
        code = regexec(&re, table[n].text, 5, m, table[n].how);
        printf(" %d of %u parts", code, (unsigned)re.re_nsub);
        if (code == 0 && !(table[n].flags & REG_NOSUB))
            for (k = 0; k <= (int)re.re_nsub && k < 5; k++)
                printf(" %d-%d", (int)m[k].rm_so, (int)m[k].rm_eo);
        putchar('\n');
        regfree(&re);
    }
    return 0;
}
/* writes
a\(b*\)c: 0 of 1 parts 2-7 3-6
(a|ab)(c|bcd)(d*): 0 of 3 parts 0-4 0-1 1-4 4-4
^[[:alpha:]_][[:alnum:]_]*$: 0 of 0 parts 0-6
([0-9]{1,3})(\.[0-9]{1,3}){3}: 0 of 2 parts 5-14 5-8 12-14
^b: 0 of 0 parts 2-3
c$: 1 of 0 parts
ABC: 0 of 0 parts 2-5
\([a-c]\)x\1: 0 of 1 parts 4-7 4-5
(a*)*: 0 of 1 parts 0-2 0-2
(a*)+: 0 of 1 parts 0-0 0-0
x*: 0 of 0 parts 0-0
(^|,)([^,]*): 0 of 2 parts 3-7 3-4 4-7
*a\|b: 0 of 0 parts 1-3
a\{2,3\}: 0 of 0 parts 1-4
\<to\>: 0 of 0 parts 5-7
[]x-]+: 0 of 0 parts 2-6
[^[:space:]]+$: 0 of 0 parts 5-9
(a|b)*c|(a|ab)*c: 0 of 2 parts 0-3 1-2 -1--1
a+?b: 0 of 0 parts 0-3
((a)|b)+: 0 of 2 parts 0-2 1-2 0-1
\.c$: 0 of 0 parts
()b: 0 of 1 parts 1-2 1-1
a{,2}b: 0 of 0 parts 1-4
(x)?(y)?z: 0 of 2 parts 0-2 -1--1 0-1
[[.a.]-[.c.]]*d: 0 of 0 parts 1-5
(: Unmatched ( or \( (18)
a): 0 of 0 parts 0-2
\): Unmatched ( or \( (18)
[a: Unmatched [, [^, [:, [., or [= (31)
[: Invalid regular expression (27)
*a: Invalid preceding regular expression (37)
a**: Invalid preceding regular expression (37)
a\{1: Unmatched \{ (13)
a{2,1}: Invalid content of \{\} (24)
[z-a]: Invalid range end (18)
[[:none:]]: Invalid character class name (29)
\: Trailing backslash (19)
\1(a): Invalid back reference (23)
a{99999}: Regular expression too big (27)
status 0 */
