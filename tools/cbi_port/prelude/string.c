unsigned strlen(const char *s) { unsigned n = 0; while (s[n]) n++; return n; }
unsigned strnlen(const char *s, unsigned most) { unsigned n = 0; while (n < most && s[n]) n++; return n; }
int strcmp(const char *a, const char *b) { while (*a && *a == *b) { a++; b++; } return (*a & 255) - (*b & 255); }
int strncmp(const char *a, const char *b, unsigned n) { while (n > 0) { if (*a != *b) return (*a & 255) - (*b & 255); if (!*a) return 0; a++; b++; n--; } return 0; }
int strcasecmp(const char *a, const char *b) { while (*a && tolower(*a & 255) == tolower(*b & 255)) { a++; b++; } return tolower(*a & 255) - tolower(*b & 255); }
int strncasecmp(const char *a, const char *b, unsigned n) { while (n > 0) { if (tolower(*a & 255) != tolower(*b & 255)) return tolower(*a & 255) - tolower(*b & 255); if (!*a) return 0; a++; b++; n--; } return 0; }
char *strcpy(char *to, const char *from) { unsigned n = 0; while (from[n]) { to[n] = from[n]; n++; } to[n] = 0; return to; }
char *stpcpy(char *to, const char *from) { while (*from) { *to = *from; to++; from++; } *to = 0; return to; }
char *strncpy(char *to, const char *from, unsigned most) { unsigned n = 0; while (n < most && from[n]) { to[n] = from[n]; n++; } while (n < most) { to[n] = 0; n++; } return to; }
char *strcat(char *to, const char *from) { unsigned n = 0; unsigned m = 0; while (to[n]) n++; while (from[m]) { to[n] = from[m]; n++; m++; } to[n] = 0; return to; }
char *strncat(char *to, const char *from, unsigned most) { unsigned n = 0; unsigned m = 0; while (to[n]) n++; while (m < most && from[m]) { to[n] = from[m]; n++; m++; } to[n] = 0; return to; }
char *strchr(const char *s, int c) { char wanted = c; while (*s != wanted) { if (!*s) return 0; s++; } return (char *)s; }
char *index(const char *s, int c) { char wanted = c; while (*s != wanted) { if (!*s) return 0; s++; } return (char *)s; }
char *strchrnul(const char *s, int c) { char wanted = c; while (*s && *s != wanted) s++; return (char *)s; }
char *strrchr(const char *s, int c) { char wanted = c; char *found = 0; while (*s) { if (*s == wanted) found = (char *)s; s++; } if (wanted == 0) return (char *)s; return found; }
char *rindex(const char *s, int c) { return strrchr(s, c); }
char *strstr(const char *s, const char *part) { unsigned n; while (1) { n = 0; while (part[n] && s[n] == part[n]) n++; if (!part[n]) return (char *)s; if (!*s) return 0; s++; } }
unsigned strspn(const char *s, const char *set) { unsigned n = 0; while (s[n] && strchr(set, s[n])) n++; return n; }
unsigned strcspn(const char *s, const char *set) { unsigned n = 0; while (s[n] && !strchr(set, s[n])) n++; return n; }
char *strpbrk(const char *s, const char *set) { while (*s) { if (strchr(set, *s)) return (char *)s; s++; } return 0; }
struct cbi_token_state { char *at; };
struct cbi_token_state cbi_token;
char *strtok(char *s, const char *set) { return strtok_r(s, set, &cbi_token.at); }
char *strtok_r(char *s, const char *set, char **state) { char *word; if (!s) s = *state; if (!s) return 0; while (*s && strchr(set, *s)) s++; if (!*s) { *state = s; return 0; } word = s; while (*s && !strchr(set, *s)) s++; if (*s) { *s = 0; s++; } *state = s; return word; }
char *strsep(char **state, const char *set) { char *word = *state; char *s = word; if (!s) return 0; while (*s && !strchr(set, *s)) s++; if (*s) { *s = 0; *state = s + 1; } else *state = 0; return word; }
char *strdup(const char *s) { unsigned n = 0; char *to; while (s[n]) n++; to = malloc(n + 1); if (!to) return 0; strcpy(to, s); return to; }
char *strndup(const char *s, unsigned most) { unsigned n = 0; unsigned m; char *to; while (n < most && s[n]) n++; to = malloc(n + 1); if (!to) return 0; for (m = 0; m < n; m++) to[m] = s[m]; to[n] = 0; return to; }
void *memchr(const void *at, int c, unsigned count) { const char *s = at; char wanted = c; while (count > 0) { if (*s == wanted) return (char *)s; s++; count--; } return 0; }
void *memrchr(const void *at, int c, unsigned count) { const char *s = at; char wanted = c; s += count; while (count > 0) { s--; if (*s == wanted) return (char *)s; count--; } return 0; }
void *memmem(const void *at, unsigned count, const void *what, unsigned length) { const char *s = at; const char *w = what; unsigned n; while (count >= length) { n = 0; while (n < length && s[n] == w[n]) n++; if (n == length) return (char *)s; s++; count--; } return 0; }
char *strcasestr(const char *s, const char *what) { unsigned length = strlen(what); while (1) { if (strncasecmp(s, what, length) == 0) return (char *)s; if (!*s) return 0; s++; } }
int strcoll(const char *a, const char *b) { return strcmp(a, b); }
