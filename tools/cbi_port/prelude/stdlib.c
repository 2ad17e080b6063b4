#include <errno.h>
#include <stdlib.h>
#include <string.h>
struct __cbi_errno_state __cbi_errno;
int abs(int n) { if (n < 0) return -n; return n; }
int labs(int n) { if (n < 0) return -n; return n; }
long long llabs(long long n) { if (n < 0) return -n; return n; }
struct __cbi_div_t div(int a, int b) { struct __cbi_div_t r; r.quot = a / b; r.rem = a % b; return r; }
struct __cbi_div_t ldiv(int a, int b) { struct __cbi_div_t r; r.quot = a / b; r.rem = a % b; return r; }
int __cbi_digit(int c) { if (c >= '0' && c <= '9') return c - '0'; if (c >= 'a' && c <= 'z') return c - 'a' + 10; if (c >= 'A' && c <= 'Z') return c - 'A' + 10; return 99; }
int __cbi_base(const char *s, int base) { if ((base == 0 || base == 16) && s[0] == '0' && (s[1] == 'x' || s[1] == 'X') && __cbi_digit(s[2]) < 16) return 16; if (base == 0) { if (s[0] == '0') return 8; return 10; } return base; }
unsigned strtoul(const char *s, char **end, int base) {
    const char *p = s; unsigned n = 0; int minus = 0; int wide = 0; int begun = 0; int d;
    while (*p == ' ' || *p >= 9 && *p <= 13) p++;
    if (*p == '-') { minus = 1; p++; } else if (*p == '+') p++;
    d = __cbi_base(p, base);
    if (d == 16 && (base == 0 || base == 16) && p[0] == '0' && (p[1] == 'x' || p[1] == 'X') && __cbi_digit(p[2]) < 16) p += 2;
    base = d;
    while ((d = __cbi_digit(*p)) < base) { begun = 1; if (n > (4294967295u - d) / base) wide = 1; n = n * base + d; p++; }
    if (end) *end = (char *)(begun ? p : s);
    if (wide) { errno = ERANGE; return 4294967295u; }
    return minus ? -n : n;
}
int strtol(const char *s, char **end, int base) {
    const char *p = s; unsigned n; unsigned most; char *behind; int minus = 0;
    while (*p == ' ' || *p >= 9 && *p <= 13) p++;
    if (*p == '-') { minus = 1; p++; } else if (*p == '+') p++;
    if (*p == '-' || *p == '+' || *p == ' ' || *p >= 9 && *p <= 13) { if (end) *end = (char *)s; return 0; }
    n = strtoul(p, &behind, base);
    if (end) *end = behind == p ? (char *)s : behind;
    most = minus ? 2147483648u : 2147483647u;
    if (n > most) { errno = ERANGE; n = most; }
    if (minus) { if (n == 2147483648u) return -2147483647 - 1; return -(int)n; }
    return n;
}
unsigned long long strtoull(const char *s, char **end, int base) {
    const char *p = s; unsigned long long n = 0; int minus = 0; int wide = 0; int begun = 0; int d;
    while (*p == ' ' || *p >= 9 && *p <= 13) p++;
    if (*p == '-') { minus = 1; p++; } else if (*p == '+') p++;
    d = __cbi_base(p, base);
    if (d == 16 && (base == 0 || base == 16) && p[0] == '0' && (p[1] == 'x' || p[1] == 'X') && __cbi_digit(p[2]) < 16) p += 2;
    base = d;
    while ((d = __cbi_digit(*p)) < base) { begun = 1; if (n > (18446744073709551615ull - d) / base) wide = 1; n = n * base + d; p++; }
    if (end) *end = (char *)(begun ? p : s);
    if (wide) { errno = ERANGE; return 18446744073709551615ull; }
    return minus ? -n : n;
}
long long strtoll(const char *s, char **end, int base) {
    const char *p = s; unsigned long long n; unsigned long long most; char *behind; int minus = 0;
    while (*p == ' ' || *p >= 9 && *p <= 13) p++;
    if (*p == '-') { minus = 1; p++; } else if (*p == '+') p++;
    if (*p == '-' || *p == '+' || *p == ' ' || *p >= 9 && *p <= 13) { if (end) *end = (char *)s; return 0; }
    n = strtoull(p, &behind, base);
    if (end) *end = behind == p ? (char *)s : behind;
    most = minus ? 9223372036854775808ull : 9223372036854775807ull;
    if (n > most) { errno = ERANGE; n = most; }
    if (minus) return (long long)-n;
    return (long long)n;
}
int atoi(const char *s) { return strtol(s, 0, 10); }
int atol(const char *s) { return strtol(s, 0, 10); }
long long atoll(const char *s) { return strtoll(s, 0, 10); }
struct __cbi_chance_state { unsigned r[34]; int at; int made; };
struct __cbi_chance_state __cbi_chance;
void srand(unsigned seed) {
    int i; int word; int high; unsigned *r = __cbi_chance.r;
    if (seed == 0) seed = 1;
    r[0] = seed;
    word = seed;
    for (i = 1; i < 31; i++) { high = word / 127773; word = 16807 * (word % 127773) - 2836 * high; if (word < 0) word += 2147483647; r[i] = word; }
    __cbi_chance.at = 3; __cbi_chance.made = 1;
    for (i = 0; i < 310; i++) __cbi_chance_next();
}
unsigned __cbi_chance_next(void) { int at = __cbi_chance.at; unsigned n; int other = at + 28; if (other >= 31) other -= 31; n = __cbi_chance.r[at] + __cbi_chance.r[other]; __cbi_chance.r[at] = n; at++; if (at == 31) at = 0; __cbi_chance.at = at; return n; }
int rand(void) { if (!__cbi_chance.made) srand(1); return __cbi_chance_next() >> 1; }
int random(void) { return rand(); }
void srandom(unsigned seed) { srand(seed); }
int rand_r(unsigned *state) { unsigned next = *state; int result; next = next * 1103515245u + 12345u; result = next / 65536u % 2048u; next = next * 1103515245u + 12345u; result = result << 10; result ^= next / 65536u % 1024u; next = next * 1103515245u + 12345u; result = result << 10; result ^= next / 65536u % 1024u; *state = next; return result; }
#ifdef __CBI_ENVIRONMENT__
// What the program itself puts into its environment, which is empty at first.
struct __cbi_variable { char *text; struct __cbi_variable *next; };
struct __cbi_environment_state { struct __cbi_variable *first; };
struct __cbi_environment_state __cbi_environment;
int __cbi_name_length(const char *text) { int n = 0; while (text[n] && text[n] != '=') n++; return n; }
struct __cbi_variable *__cbi_variable_of(const char *name) {
    struct __cbi_variable *it; int length = __cbi_name_length(name);
    for (it = __cbi_environment.first; it; it = it->next) if (__cbi_name_length(it->text) == length && strncmp(it->text, name, length) == 0) return it;
    return 0;
}
char *getenv(const char *name) { struct __cbi_variable *it = strchr(name, '=') ? 0 : __cbi_variable_of(name); return it ? it->text + strlen(name) + 1 : 0; }
int unsetenv(const char *name) {
    struct __cbi_variable *it; struct __cbi_variable *before;
    if (!*name || strchr(name, '=')) { errno = EINVAL; return -1; }
    it = __cbi_variable_of(name);
    if (!it) return 0;
    before = __cbi_environment.first;
    if (before == it) __cbi_environment.first = it->next; else { while (before->next != it) before = before->next; before->next = it->next; }
    return 0;
}
int putenv(char *text) {
    struct __cbi_variable *it;
    if (!strchr(text, '=')) return unsetenv(text);
    it = __cbi_variable_of(text);
    if (!it) { it = malloc(sizeof(struct __cbi_variable)); it->next = __cbi_environment.first; __cbi_environment.first = it; }
    it->text = text;
    return 0;
}
int setenv(const char *name, const char *value, int again) {
    char *text;
    if (!*name || strchr(name, '=')) { errno = EINVAL; return -1; }
    if (!again && __cbi_variable_of(name)) return 0;
    text = malloc(strlen(name) + strlen(value) + 2);
    strcpy(text, name); strcat(text, "="); strcat(text, value);
    return putenv(text);
}
#else
char *getenv(const char *name) { return 0; }
#endif
struct __cbi_exit_state { void (*f[32])(void); int count; };
struct __cbi_exit_state __cbi_exits;
int atexit(void (*f)(void)) { if (__cbi_exits.count == 32) return -1; __cbi_exits.f[__cbi_exits.count] = f; __cbi_exits.count++; return 0; }
void __cbi_run_exits(void) { while (__cbi_exits.count > 0) { __cbi_exits.count--; __cbi_exits.f[__cbi_exits.count](); } }
void __cbi_exit_now(int status) { __cbi_run_exits(); exit(status); }
void __abort(void) { abort(); }
void __exit(int status) { exit(status); }
void _exit(int status) { exit(status); }
void _Exit(int status) { exit(status); }
void *__malloc(unsigned n) { return malloc(n); }
void __free(void *p) { free(p); }
int ffs(int n) { int k; for (k = 0; k < 32; k++) if ((unsigned)n >> k & 1u) return k + 1; return 0; }
int ffsl(int n) { return ffs(n); }
int ffsll(long long n) { if ((int)n) return ffs((int)n); if ((int)(n >> 32)) return ffs((int)(n >> 32)) + 32; return 0; }
int clz(unsigned n) { int k = 0; while (!(n & 2147483648u)) { n = n << 1; k++; if (k == 32) break; } return k; }
int clzl(unsigned n) { return clz(n); }
int clzll(unsigned long long n) { if ((unsigned)(n >> 32)) return clz((unsigned)(n >> 32)); return 32 + clz((unsigned)n); }
int ctz(unsigned n) { int k = 0; while (!(n & 1u)) { n = n >> 1; k++; if (k == 32) break; } return k; }
int ctzl(unsigned n) { return ctz(n); }
int ctzll(unsigned long long n) { if ((unsigned)n) return ctz((unsigned)n); return 32 + ctz((unsigned)(n >> 32)); }
int popcount(unsigned n) { int k = 0; while (n) { n = n & (n - 1u); k++; } return k; }
int popcountl(unsigned n) { return popcount(n); }
int popcountll(unsigned long long n) { return popcount((unsigned)n) + popcount((unsigned)(n >> 32)); }
int parity(unsigned n) { return popcount(n) & 1; }
int parityl(unsigned n) { return popcount(n) & 1; }
int parityll(unsigned long long n) { return popcountll(n) & 1; }
int clrsb(int n) { if (n < 0) n = ~n; if (n == 0) return 31; return clz(n) - 1; }
int clrsbl(int n) { return clrsb(n); }
int clrsbll(long long n) { if (n < 0) n = ~n; if (n == 0) return 63; return clzll(n) - 1; }
unsigned short bswap16(unsigned short n) { return (unsigned short)(n << 8 | n >> 8); }
unsigned bswap32(unsigned n) { return n << 24 | (n & 65280u) << 8 | (n >> 8 & 65280u) | n >> 24; }
unsigned long long bswap64(unsigned long long n) { return (unsigned long long)bswap32((unsigned)n) << 32 | bswap32((unsigned)(n >> 32)); }
