#include <stdlib.h>
#include <string.h>
#include <ctype.h>
static int sign(int n) { return n < 0 ? -1 : n > 0; }
int main(void)
{
    char b[32], c[32] = "hello", *p, *save;
    if (strlen(c) != 5 || sign(strcmp("a", "b")) != -1 || strcmp("ab", "ab") || sign(strcmp("\xff", "a")) != 1) abort();
    if (strncmp("abc", "abd", 2) || sign(strncmp("abc", "abd", 3)) != -1) abort();
    strcpy(b, c); strcat(b, " "); strncat(b, "world!!!", 5);
    if (strcmp(b, "hello world")) abort();
    if (strchr(b, 'w') != b + 6 || strchr(b, 'z') || *strchr(b, 0) || strrchr(b, 'o') != b + 7 || strstr(b, "lo w") != b + 3 || strstr(b, "xx") || strstr(b, "") != b) abort();
    if (strspn("aabc", "ab") != 3 || strcspn("xyz1", "123") != 3 || strpbrk(b, "ow") != b + 4) abort();
    memset(c, 'x', 3); c[3] = 0; if (strcmp(c, "xxx")) abort();
    memcpy(c, b, 5); memmove(c + 1, c, 5); if (memcmp(c, "hhello", 6)) abort();
    if (memchr(b, 'w', 11) != b + 6 || memchr(b, 'w', 3)) abort();
    strncpy(c, "ab", 5); if (c[1] != 'b' || c[2] || c[4] || c[5] != 'o') abort();
    strcpy(b, "a,b;;c");
    p = strtok(b, ",;"); if (strcmp(p, "a")) abort();
    p = strtok(NULL, ",;"); if (strcmp(p, "b")) abort();
    p = strtok(NULL, ",;"); if (strcmp(p, "c")) abort();
    if (strtok(NULL, ",;")) abort();
    strcpy(b, "k=v"); p = strtok_r(b, "=", &save); if (strcmp(save, "v")) abort();
    p = strdup("copy"); p[0] = 'C'; if (strcmp(p, "Copy")) abort(); free(p);
    if (!isdigit('5') || isdigit('a') || !isalpha('z') || !isspace('\t') || !isupper('Q') || tolower('Q') != 'q' || toupper('1') != '1' || !ispunct('!') || !isxdigit('f') || isalnum('_') || !isprint(' ') || iscntrl('a')) abort();
    if (atoi("  -42x") != -42 || strtol("0x1fz", &p, 0) != 31 || *p != 'z' || strtol("777", 0, 8) != 511 || strtoul("4294967295", 0, 10) != 4294967295u || strtol("99999999999", 0, 10) != 2147483647L || strtoll("-1234567890123", 0, 10) != -1234567890123LL) abort();
    if (abs(-5) != 5 || labs(-6L) != 6 || llabs(-7000000000LL) != 7000000000LL || div(17, 5).rem != 2) abort();
    return 0;
}
