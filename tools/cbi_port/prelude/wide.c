unsigned wcslen(const int *s) { unsigned n = 0; while (s[n]) n++; return n; }
unsigned wcsnlen(const int *s, unsigned most) { unsigned n = 0; while (n < most && s[n]) n++; return n; }
int wcscmp(const int *a, const int *b) { while (*a && *a == *b) { a++; b++; } return (*a > *b) - (*a < *b); }
int wcsncmp(const int *a, const int *b, unsigned n) { while (n > 0) { if (*a != *b) return *a > *b ? 1 : -1; if (!*a) return 0; a++; b++; n--; } return 0; }
int wcscoll(const int *a, const int *b) { return wcscmp(a, b); }
int *wcscpy(int *to, const int *from) { unsigned n = 0; while (from[n]) { to[n] = from[n]; n++; } to[n] = 0; return to; }
int *wcpcpy(int *to, const int *from) { while (*from) { *to = *from; to++; from++; } *to = 0; return to; }
int *wcsncpy(int *to, const int *from, unsigned most) { unsigned n = 0; while (n < most && from[n]) { to[n] = from[n]; n++; } while (n < most) { to[n] = 0; n++; } return to; }
int *wcpncpy(int *to, const int *from, unsigned most) { unsigned n = 0; unsigned end; while (n < most && from[n]) { to[n] = from[n]; n++; } end = n; while (n < most) { to[n] = 0; n++; } return to + end; }
int *wcscat(int *to, const int *from) { wcscpy(to + wcslen(to), from); return to; }
int *wcsncat(int *to, const int *from, unsigned most) { unsigned n = wcslen(to); unsigned m = 0; while (m < most && from[m]) { to[n] = from[m]; n++; m++; } to[n] = 0; return to; }
int *wcschr(const int *s, int c) { while (*s != c) { if (!*s) return 0; s++; } return (int *)s; }
int *wcsrchr(const int *s, int c) { int *found = 0; while (*s) { if (*s == c) found = (int *)s; s++; } if (c == 0) return (int *)s; return found; }
unsigned wcsspn(const int *s, const int *set) { unsigned n = 0; while (s[n] && wcschr(set, s[n])) n++; return n; }
unsigned wcscspn(const int *s, const int *set) { unsigned n = 0; while (s[n] && !wcschr(set, s[n])) n++; return n; }
int *wcspbrk(const int *s, const int *set) { while (*s) { if (wcschr(set, *s)) return (int *)s; s++; } return 0; }
int *wcsstr(const int *s, const int *part) { unsigned n; while (1) { n = 0; while (part[n] && s[n] == part[n]) n++; if (!part[n]) return (int *)s; if (!*s) return 0; s++; } }
int *wcstok(int *s, const int *set, int **state) { int *word; if (!s) s = *state; if (!s) return 0; while (*s && wcschr(set, *s)) s++; if (!*s) { *state = 0; return 0; } word = s; while (*s && !wcschr(set, *s)) s++; if (*s) { *s = 0; *state = s + 1; } else *state = 0; return word; }
int *wcsdup(const int *s) { int *to = malloc((wcslen(s) + 1) * sizeof(int)); if (!to) return 0; return wcscpy(to, s); }
int *wmemchr(const int *s, int c, unsigned count) { while (count > 0) { if (*s == c) return (int *)s; s++; count--; } return 0; }
int wmemcmp(const int *a, const int *b, unsigned count) { while (count > 0) { if (*a != *b) return *a > *b ? 1 : -1; a++; b++; count--; } return 0; }
int *wmemcpy(int *to, const int *from, unsigned count) { unsigned n; for (n = 0; n < count; n++) to[n] = from[n]; return to; }
int *wmemmove(int *to, const int *from, unsigned count) { unsigned n; int *kept; if (count == 0) return to; kept = malloc(count * sizeof(int)); if (!kept) abort(); for (n = 0; n < count; n++) kept[n] = from[n]; for (n = 0; n < count; n++) to[n] = kept[n]; free(kept); return to; }
int *wmemset(int *to, int c, unsigned count) { unsigned n; for (n = 0; n < count; n++) to[n] = c; return to; }
unsigned btowc(int c) { return c >= 0 && c < 128 ? (unsigned)c : 4294967295u; }
int wctob(unsigned c) { return c < 128 ? (int)c : -1; }
