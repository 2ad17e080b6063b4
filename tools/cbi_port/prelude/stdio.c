#include <errno.h>
#include <stdio.h>
#include <string.h>
#undef EOF
struct __cbi_FILE __cbi_in = { 0 };
struct __cbi_FILE __cbi_out = { 1 };
struct __cbi_FILE __cbi_errors = { 2 };
// Where a form is written to: the output (kind 0), a text (1), nowhere (2) or a file (3).
#ifdef __CBI_OPENED__
struct __cbi_sink { char *at; unsigned room; int count; int kind; struct __cbi_FILE *file; };
int fgetc(struct __cbi_FILE *f) { int c; if (f->ahead) { f->ahead = 0; return f->back; } c = __cbi_read_byte(f->number); if (c == -2) { f->failed = 1; return -1; } if (c == -1) f->ended = 1; return c; }
int fputc(int c, struct __cbi_FILE *f) { if (__cbi_write_byte(f->number, c)) { f->failed = 1; return -1; } return c & 255; }
#else
struct __cbi_sink { char *at; unsigned room; int count; int kind; };
int fgetc(struct __cbi_FILE *f) { int c; if (f->number != 0) return -1; if (f->ahead) { f->ahead = 0; return f->back; } c = getchar(); if (c == -1) f->ended = 1; return c; }
int fputc(int c, struct __cbi_FILE *f) { if (f->number == 1 || f->number == 2 && __cbi_join_stderr()) putchar(c); return c & 255; }
#endif
#ifdef __CBI_REDIRECTS__
int __cbi_out_byte(int c) { return fputc(c, &__cbi_out); }
#else
#define __cbi_out_byte(c) putchar(c)
#endif
int getc(struct __cbi_FILE *f) { return fgetc(f); }
int __getchar(void) { return fgetc(&__cbi_in); }
int getchar_unlocked(void) { return fgetc(&__cbi_in); }
int ungetc(int c, struct __cbi_FILE *f) { if (c == -1 || f->ahead) return -1; f->ahead = 1; f->back = c & 255; f->ended = 0; return c & 255; }
int feof(struct __cbi_FILE *f) { return f->ended; }
int ferror(struct __cbi_FILE *f) { return f->failed; }
void clearerr(struct __cbi_FILE *f) { f->ended = 0; f->failed = 0; }
int fileno(struct __cbi_FILE *f) { return f->number; }
int fflush(struct __cbi_FILE *f) { return 0; }
void setbuf(struct __cbi_FILE *f, char *buffer) { }
int setvbuf(struct __cbi_FILE *f, char *buffer, int mode, unsigned size) { return 0; }
char *fgets(char *s, int size, struct __cbi_FILE *f) { int n = 0; int c = 0; if (size <= 0) return 0; while (n < size - 1 && c != '\n') { c = fgetc(f); if (c == -1) { if (n == 0) return 0; break; } s[n] = c; n++; } s[n] = 0; return s; }
char *gets(char *s) { int n = 0; int c; while ((c = fgetc(&__cbi_in)) != '\n') { if (c == -1) { if (n == 0) return 0; break; } s[n] = c; n++; } s[n] = 0; return s; }
int putc(int c, struct __cbi_FILE *f) { return fputc(c, f); }
int __putchar(int c) { return __cbi_out_byte(c); }
int putchar_unlocked(int c) { return __cbi_out_byte(c); }
int __puts(const char *s) { while (*s) { __cbi_out_byte(*s); s++; } __cbi_out_byte(10); return 1; }
int fputs(const char *s, struct __cbi_FILE *f) { while (*s) { if (fputc(*s, f) == -1) return -1; s++; } return 1; }
unsigned fwrite(const void *from, unsigned size, unsigned count, struct __cbi_FILE *f) { const char *s = from; unsigned n; for (n = 0; n < size * count; n++) if (fputc(s[n], f) == -1) return n / size; return count; }
unsigned fread(void *to, unsigned size, unsigned count, struct __cbi_FILE *f) { char *s = to; unsigned n = 0; int c; if (size == 0) return 0; while (n < size * count) { c = fgetc(f); if (c == -1) break; s[n] = c; n++; } return n / size; }
void perror(const char *s) { if (s && *s) { fputs(s, &__cbi_errors); fputs(": ", &__cbi_errors); } fputs(strerror(errno), &__cbi_errors); fputs("\n", &__cbi_errors); }
void __cbi_put(struct __cbi_sink *to, int c) {
    if (to->kind == 1) { if (to->room > 1u) { *to->at = c; to->at++; to->room--; } }
    else if (to->kind == 0) __cbi_out_byte(c);
#ifdef __CBI_OPENED__
    else if (to->kind == 3) fputc(c, to->file);
#endif
    to->count++;
}
void __cbi_pad(struct __cbi_sink *to, int c, int count) { while (count > 0) { __cbi_put(to, c); count--; } }
void __cbi_text(struct __cbi_sink *to, const char *s, int width, int most, int left) { int n = 0; int k; if (!s) { s = "(null)"; if (most >= 0 && most < 6) s = ""; } while ((most < 0 || n < most) && s[n]) n++; if (!left) __cbi_pad(to, ' ', width - n); for (k = 0; k < n; k++) __cbi_put(to, s[k]); if (left) __cbi_pad(to, ' ', width - n); }
void __cbi_number(struct __cbi_sink *to, const char *digits, int count, const char *sign, int flags, int width, int most) {
    int zeros = 0; int length = 0; int k;
    while (sign[length]) length++;
    if (most >= 0) { if (most == 0 && count == 1 && digits[0] == '0') count = 0; zeros = most - count; }
    else if ((flags & 3) == 2) zeros = width - length - count;
    if (zeros < 0) zeros = 0;
    if (!(flags & 1)) __cbi_pad(to, ' ', width - length - zeros - count);
    for (k = 0; k < length; k++) __cbi_put(to, sign[k]);
    __cbi_pad(to, '0', zeros);
    for (k = count - 1; k >= 0; k--) __cbi_put(to, digits[k]);
    if (flags & 1) __cbi_pad(to, ' ', width - length - zeros - count);
}
int __cbi_digits(char *to, unsigned n, unsigned base, int great) { int count = 0; unsigned d; do { d = n % base; to[count] = d < 10u ? '0' + d : (great ? 'A' : 'a') + (d - 10u); count++; n = n / base; } while (n); return count; }
int __cbi_long_digits(char *to, unsigned long long n, unsigned base, int great) { int count = 0; unsigned d; do { d = (unsigned)(n % base); to[count] = d < 10u ? '0' + d : (great ? 'A' : 'a') + (d - 10u); count++; n = n / base; } while (n); return count; }
void __cbi_wide(struct __cbi_sink *to, unsigned long long n, int letter, const char *sign, int flags, int width, int most) {
    char digits[66]; int count = __cbi_long_digits(digits, n, letter == 'o' ? 8 : letter == 'x' || letter == 'X' ? 16 : letter == 'b' || letter == 'B' ? 2 : 10, letter == 'X');
    if (flags & 4) { if (letter == 'o') { if (most == 0) most = 1; if (digits[count - 1] != '0') { digits[count] = '0'; count++; } } else if (n) sign = letter == 'x' ? "0x" : letter == 'X' ? "0X" : letter == 'b' ? "0b" : "0B"; }
    __cbi_number(to, digits, count, sign, flags, width, most);
}
void __cbi_narrow(struct __cbi_sink *to, unsigned n, int letter, const char *sign, int flags, int width, int most) {
    char digits[66]; int count = __cbi_digits(digits, n, letter == 'o' ? 8 : letter == 'x' || letter == 'X' ? 16 : letter == 'b' || letter == 'B' ? 2 : 10, letter == 'X');
    if (flags & 4) { if (letter == 'o') { if (most == 0) most = 1; if (digits[count - 1] != '0') { digits[count] = '0'; count++; } } else if (n) sign = letter == 'x' ? "0x" : letter == 'X' ? "0X" : letter == 'b' ? "0b" : "0B"; }
    __cbi_number(to, digits, count, sign, flags, width, most);
}
int __cbi_failed(int number) { errno = number; return -1; }
void __cbi_odd(struct __cbi_sink *to, int letter, int flags, int width, int most) {
    char digits[12]; int n;
    __cbi_put(to, '%');
    if (flags & 4) __cbi_put(to, '#');
    if (flags & 32) __cbi_put(to, '\'');
    if (flags & 8) __cbi_put(to, '+'); else if (flags & 16) __cbi_put(to, ' ');
    if (flags & 1) __cbi_put(to, '-'); else if (flags & 2) __cbi_put(to, '0');
    if (flags & 64) __cbi_put(to, 'I');
    if (width) for (n = __cbi_digits(digits, width, 10, 0); n > 0; n--) __cbi_put(to, digits[n - 1]);
    if (most >= 0) { __cbi_put(to, '.'); for (n = __cbi_digits(digits, most, 10, 0); n > 0; n--) __cbi_put(to, digits[n - 1]); }
    __cbi_put(to, letter);
}
#ifdef __CBI_WIDE__
int __cbi_wide_text(struct __cbi_sink *to, const int *s, int width, int most, int left) {
    int n = 0; int k;
    if (!s) { __cbi_text(to, 0, width, most, left); return 0; }
    while ((most < 0 || n < most) && s[n]) { if (s[n] & ~127) return 1; n++; }
    if (!left) __cbi_pad(to, ' ', width - n);
    for (k = 0; k < n; k++) __cbi_put(to, s[k]);
    if (left) __cbi_pad(to, ' ', width - n);
    return 0;
}
#endif
#ifdef __CBI_HEX__
void __cbi_hex(struct __cbi_sink *to, unsigned long long a, int letter, int flags, int width, int most, const char *sign, int wide) {
    char digits[16]; char power[8]; int great = letter == 'A'; int e = 0; int count; int n; int length; int tail = wide ? 60 : 52; unsigned long long m = __cbi_double_mantissa(a); unsigned long long rest;
    if (a >> 63) sign = "-";
    if (wide) { if (m) { e = __cbi_double_exponent(a) + 60; while (!(m >> 63)) { m = m << 1; e--; } } }
    else if (m) e = __cbi_double_exponent(a) + 52;
    if (most >= 0 && 4 * most < tail) {
        n = tail - 4 * most;
        rest = m & (1ULL << n) - 1; m = m >> n;
        if (rest > 1ULL << (n - 1) || rest == 1ULL << (n - 1) && (m & 1)) m++;
        tail = 4 * most;
    }
    count = 0;
    while (tail > 0) { n = (int)m & 15; m = m >> 4; tail -= 4; digits[count] = n < 10 ? '0' + n : (great ? 'A' : 'a') + (n - 10); count++; }
    n = 0;
    if (most < 0) while (n < count && digits[n] == '0') n++;
    if (most < 0) most = count - n;
    if ((int)m > 15) { m = 1; e += 4; }
    length = __cbi_digits(power, e < 0 ? -e : e, 10, 0);
    width -= (*sign != 0) + 5 + (most > 0 || flags & 4 ? 1 : 0) + most + length;
    if (!(flags & 3)) __cbi_pad(to, ' ', width);
    if (*sign) __cbi_put(to, *sign);
    __cbi_put(to, '0'); __cbi_put(to, great ? 'X' : 'x');
    if ((flags & 3) == 2) __cbi_pad(to, '0', width);
    __cbi_put(to, (int)m < 10 ? '0' + (int)m : (great ? 'A' : 'a') + ((int)m - 10));
    if (most > 0 || flags & 4) __cbi_put(to, '.');
    for (n = 0; n < most; n++) __cbi_put(to, n < count ? digits[count - 1 - n] : '0');
    __cbi_put(to, great ? 'P' : 'p'); __cbi_put(to, e < 0 ? '-' : '+');
    while (length > 0) { length--; __cbi_put(to, power[length]); }
    if (flags & 1) __cbi_pad(to, ' ', width);
}
#endif
int __cbi_format(struct __cbi_sink *to, const char *form, va_list more) {
    int flags; int width; int most; int size; int n; unsigned u; long long l; const char *sign; void *p;
#ifdef __CBI_FLOATS__
    unsigned long long bits;
#endif
    while (*form) {
        if (*form != '%') { __cbi_put(to, *form); form++; continue; }
        form++;
        flags = 0; width = 0; most = -1; size = 0; sign = "";
        while (1) {
            if (*form == '-') flags |= 1; else if (*form == '0') flags |= 2; else if (*form == '#') flags |= 4;
            else if (*form == '+') flags |= 8; else if (*form == ' ') flags |= 16; else if (*form == '\'') flags |= 32; else if (*form == 'I') flags |= 64; else break;
            form++;
        }
        if (*form == '*') { width = va_arg(more, int); form++; if (width < -2147483647) return __cbi_failed(EOVERFLOW); if (width < 0) { flags |= 1; width = -width; } }
        else while (*form >= '0' && *form <= '9') { if (width > 214748363) return __cbi_failed(EOVERFLOW); width = width * 10 + (*form - '0'); form++; }
        if (*form == '.') {
            form++; most = 0;
            if (*form == '*') { most = va_arg(more, int); form++; if (most < 0) most = -1; }
            else while (*form >= '0' && *form <= '9') { if (most > 214748363) return __cbi_failed(EOVERFLOW); most = most * 10 + (*form - '0'); form++; }
        }
        while (*form == 'l' || *form == 'h' || *form == 'z' || *form == 't' || *form == 'j' || *form == 'q' || *form == 'L') {
            if (*form == 'l') size++; else if (*form == 'h') size--; else if (*form == 'j' || *form == 'q' || *form == 'L') size = 2;
            form++;
        }
        if (*form == 'd' || *form == 'i') {
            if (flags & 8) sign = "+"; else if (flags & 16) sign = " ";
            flags = flags & ~4;
            if (size >= 2) { l = va_arg(more, long long); if (l < 0) __cbi_wide(to, -(unsigned long long)l, 'd', "-", flags, width, most); else __cbi_wide(to, l, 'd', sign, flags, width, most); }
            else {
                n = va_arg(more, int);
                if (size == -1) n = (short)n; else if (size == -2) n = (signed char)n;
                if (n < 0) __cbi_narrow(to, -(unsigned)n, 'd', "-", flags, width, most); else __cbi_narrow(to, n, 'd', sign, flags, width, most);
            }
        } else if (*form == 'u' || *form == 'x' || *form == 'X' || *form == 'o' || *form == 'b' || *form == 'B') {
            if (*form == 'u') flags = flags & ~4;
            if (size >= 2) __cbi_wide(to, va_arg(more, unsigned long long), *form, "", flags, width, most);
            else { u = va_arg(more, unsigned); if (size == -1) u = u & 65535u; else if (size == -2) u = u & 255u; __cbi_narrow(to, u, *form, "", flags, width, most); }
        } else if (*form == 'c' || *form == 'C') {
            n = va_arg(more, int);
            if ((size > 0 || *form == 'C') && n & ~127) return __cbi_failed(EILSEQ);
            if (!(flags & 1)) __cbi_pad(to, ' ', width - 1);
            __cbi_put(to, n & 255);
            if (flags & 1) __cbi_pad(to, ' ', width - 1);
#ifdef __CBI_WIDE__
        } else if (*form == 'S' || *form == 's' && size > 0) {
            if (__cbi_wide_text(to, va_arg(more, const int *), width, most, flags & 1)) return __cbi_failed(EILSEQ);
#endif
        } else if (*form == 's') {
            __cbi_text(to, va_arg(more, const char *), width, most, flags & 1);
#ifdef __CBI_ERRORS__
        } else if (*form == 'm') {
            __cbi_text(to, strerror(errno), width, most, flags & 1);
#endif
        } else if (*form == 'p') {
            p = va_arg(more, void *);
#ifdef __CBI_BYTES__
            if (p) __cbi_narrow(to, (unsigned)p, 'x', "", flags & ~2 | 4, width, most); else
#else
            if (p) __cbi_text(to, "0x1000", width, -1, flags & 1); else
#endif
                __cbi_text(to, "(nil)", width, -1, flags & 1);
#ifdef __CBI_FLOATS__
        } else if (*form == 'f' || *form == 'F' || *form == 'e' || *form == 'E' || *form == 'g' || *form == 'G' || *form == 'a' || *form == 'A') {
            if (flags & 8) sign = "+"; else if (flags & 16) sign = " ";
            bits = __cbi_bits(va_arg(more, double));
#ifdef __CBI_HEX__
            if ((*form == 'a' || *form == 'A') && (bits >> 52 & 2047) != 2047) __cbi_hex(to, bits, *form, flags, width, most, sign, size > 1); else
#endif
            __cbi_real(to, bits, *form, flags, width, most, sign);
#endif
        } else if (*form == 'n') {
            if (size >= 2) *va_arg(more, long long *) = to->count; else if (size == -1) *va_arg(more, short *) = to->count; else if (size == -2) *va_arg(more, signed char *) = to->count; else *va_arg(more, int *) = to->count;
        } else if (*form == '%') {
            __cbi_put(to, '%');
        } else if (!*form) return __cbi_failed(EINVAL);
        else __cbi_odd(to, *form, flags, width, most);
        form++;
    }
    return to->count;
}
int vprintf(const char *form, va_list more) { struct __cbi_sink to; to.at = 0; to.room = 0; to.count = 0; to.kind = 0; return __cbi_format(&to, form, more); }
int printf(const char *form, ...) { va_list more; va_start(more, form); return vprintf(form, more); }
#ifdef __CBI_OPENED__
int vfprintf(struct __cbi_FILE *f, const char *form, va_list more) { struct __cbi_sink to; int n; to.at = 0; to.room = 0; to.count = 0; to.kind = 3; to.file = f; n = __cbi_format(&to, form, more); return f->failed ? -1 : n; }
#else
int vfprintf(struct __cbi_FILE *f, const char *form, va_list more) { struct __cbi_sink to; to.at = 0; to.room = 0; to.count = 0; to.kind = f->number == 1 || f->number == 2 && __cbi_join_stderr() ? 0 : 2; return __cbi_format(&to, form, more); }
#endif
int fprintf(struct __cbi_FILE *f, const char *form, ...) { va_list more; va_start(more, form); return vfprintf(f, form, more); }
int vsnprintf(char *at, unsigned room, const char *form, va_list more) { struct __cbi_sink to; int n; to.at = at; to.room = room; to.count = 0; to.kind = 1; n = __cbi_format(&to, form, more); if (room > 0u) *to.at = 0; return n; }
int snprintf(char *at, unsigned room, const char *form, ...) { va_list more; va_start(more, form); return vsnprintf(at, room, form, more); }
int vsprintf(char *at, const char *form, va_list more) { return vsnprintf(at, 2147483647u, form, more); }
int sprintf(char *at, const char *form, ...) { va_list more; va_start(more, form); return vsnprintf(at, 2147483647u, form, more); }
int vdprintf(int number, const char *form, va_list more) { struct __cbi_FILE f; f.number = number; f.ahead = 0; f.ended = 0; f.failed = 0; return vfprintf(&f, form, more); }
int dprintf(int number, const char *form, ...) { va_list more; va_start(more, form); return vdprintf(number, form, more); }
int vasprintf(char **to, const char *form, va_list more) { int n = vsnprintf(0, 0, form, more); if (n < 0) return n; *to = malloc(n + 1); return vsnprintf(*to, n + 1, form, more); }
int asprintf(char **to, const char *form, ...) { va_list more; va_start(more, form); return vasprintf(to, form, more); }
struct __cbi_source { const char *at; int count; int ended; struct __cbi_FILE *file; };
int __cbi_take(struct __cbi_source *from) { int c; if (!from->at) c = fgetc(from->file); else { c = *from->at & 255; if (c == 0) c = -1; else from->at++; } if (c != -1) from->count++; return c; }
void __cbi_give(struct __cbi_source *from, int c) { if (c == -1) return; from->count--; if (!from->at) ungetc(c, from->file); else from->at--; }
int __cbi_blank(int c) { return c == ' ' || c >= 9 && c <= 13; }
int __cbi_in_set(const char *set, int length, int c) {
    int not = 0; int n = 0;
    if (set[0] == '^') { not = 1; n = 1; }
    if (n < length && (set[n] == ']' || set[n] == '-')) { if (c == set[n]) return !not; n++; }
    while (n < length) {
        if (set[n] == '-' && n + 1 < length && (set[n - 1] & 255) <= (set[n + 1] & 255)) { if (c >= (set[n - 1] & 255) && c < (set[n + 1] & 255)) return !not; }
        else if (c == (set[n] & 255)) return !not;
        n++;
    }
    return not;
}
void __cbi_keep(unsigned n, unsigned high, int sign, int size, va_list *more) {
    if (size >= 2) { if (sign) *va_arg(*more, long long *) = (long long)((unsigned long long)high << 32 | n); else *va_arg(*more, unsigned long long *) = (unsigned long long)high << 32 | n; }
    else if (size == -1) { if (sign) *va_arg(*more, short *) = (short)n; else *va_arg(*more, unsigned short *) = (unsigned short)n; }
    else if (size == -2) { if (sign) *va_arg(*more, signed char *) = (signed char)n; else *va_arg(*more, unsigned char *) = (unsigned char)n; }
    else if (sign) *va_arg(*more, int *) = (int)n; else *va_arg(*more, unsigned *) = n;
}
#ifdef __CBI_FLOATS__
int __cbi_letters(struct __cbi_source *from, char *word, int n, int width, const char *letters) {
    int c;
    while (*letters) {
        if (n == width) return 0;
        c = __cbi_take(from);
        if ((c | 32) != *letters) return 0;
        word[n] = c; n++; letters++;
    }
    return n;
}
int __cbi_real_word(struct __cbi_source *from, char *word, int width) {
    int n = 0; int digits = 0; int point = 0; int power = 0; int mark = 'e'; int begun; int c = __cbi_take(from);
    from->ended = c == -1;
    if (c == '-' || c == '+') { word[n] = c; n++; if (n == width) return 0; c = __cbi_take(from); if (c == -1) return 0; }
    if (c != -1 && ((c | 32) == 'n' || (c | 32) == 'i')) {
        word[n] = c; n = __cbi_letters(from, word, n + 1, width, (c | 32) == 'n' ? "an" : "nf");
        if (n && (c | 32) == 'i' && n < width) {
            c = __cbi_take(from);
            if (c != -1 && (c | 32) == 'i') { word[n] = c; n = __cbi_letters(from, word, n + 1, width, "nity"); } else __cbi_give(from, c);
        }
        word[n] = 0;
        return n;
    }
    begun = n;
    if (c == '0') {
        word[n] = c; n++; digits = 1; c = n < width ? __cbi_take(from) : -1;
        if ((c == 'x' || c == 'X') && n + 1 < width) { word[n] = c; n++; mark = 'p'; digits = 0; begun = n; c = n < width ? __cbi_take(from) : -1; }
    }
    while (c != -1) {
        if (c >= '0' && c <= '9' || mark == 'p' && !power && ((c | 32) >= 'a' && (c | 32) <= 'f')) digits = 1;
        else if ((c == '-' || c == '+') && power && (word[n - 1] | 32) == mark) ;
        else if (c == '.' && !point) point = 1;
        else if ((c | 32) == mark && digits && !power) { power = 1; point = 1; }
        else break;
        word[n] = c; n++;
        c = n < width ? __cbi_take(from) : -1;
    }
    __cbi_give(from, c);
    word[n] = 0;
    return digits || mark == 'p' && n > begun ? n : 0;
}
#endif
int __cbi_failed_at(int done) { return done ? done : -1; }
int __cbi_scan(struct __cbi_source *from, const char *form, va_list more) {
#ifdef __CBI_FLOATS__
    char word[304];
#endif
#ifdef __CBI_WIDE__
    int *w;
#endif
#ifdef __CBI_MADE__
    char *longer; int room;
#endif
    int done = 0; int c; int width; int size; int drop; int made; int letter; int base; int minus; int begun; int d; int length; int other; int wide; const char *set; char *s; unsigned n; unsigned high; unsigned part; unsigned carry;
    while (*form) {
        if (__cbi_blank(*form)) { while (__cbi_blank(c = __cbi_take(from))) ; __cbi_give(from, c); form++; continue; }
        if (*form != '%') { c = __cbi_take(from); if (c == -1) return __cbi_failed_at(done); if (c != (*form & 255)) { __cbi_give(from, c); return done; } form++; continue; }
        form++; width = 0; size = 0; drop = 0; other = 0; made = 0;
        while (*form == '*' || *form == '\'' || *form == 'I') { if (*form == '*') drop = 1; form++; }
        while (*form >= '0' && *form <= '9') { if (width < 100000000) width = width * 10 + (*form - '0'); form++; }
        while (*form == 'l' || *form == 'h' || *form == 'z' || *form == 'j' || *form == 't' || *form == 'q' || *form == 'L' || *form == 'J' || *form == 'm') { if (*form == 'l') size++; else if (*form == 'h') size--; else if (*form == 'j' || *form == 'q' || *form == 'L') size = 2; else if (*form == 'J') other = 1; else if (*form == 'm') made = 1; form++; }
        letter = *form;
        if (!letter) return done;
        form++;
        if (letter == 'C' || letter == 'S') { letter = letter | 32; size = 1; }
        if (letter == 'n') { if (!drop) __cbi_keep(from->count, 0, 1, size, &more); continue; }
        if (letter != 'c' && letter != '[') { while (__cbi_blank(c = __cbi_take(from))) ; __cbi_give(from, c); }
        if (letter == '%') { c = __cbi_take(from); if (c == -1) return __cbi_failed_at(done); if (c != '%') { __cbi_give(from, c); return done; } continue; }
        if (letter == 'c' || letter == 's' || letter == '[') {
            set = form; length = 0;
            if (letter == '[') {
                if (*form == '^') { form++; length++; }
                if (*form == ']') { form++; length++; }
                while (*form && *form != ']') { form++; length++; }
                if (!*form) return done;
                form++;
            }
            if (letter == 'c' && width == 0) width = 1;
            s = 0;
            d = 0;
            c = __cbi_take(from);
            if (c == -1) return __cbi_failed_at(done);
#ifdef __CBI_WIDE__
            w = 0;
            if (!drop && size > 0) w = va_arg(more, int *); else
#endif
#ifdef __CBI_MADE__
            room = 24;
            if (!drop && made) s = malloc(room); else
#endif
            if (!drop) s = va_arg(more, char *);
            while (c != -1 && (letter == 'c' || (letter == 's' ? !__cbi_blank(c) : __cbi_in_set(set, length, c)))) {
#ifdef __CBI_WIDE__
                if (size > 0 && c > 127) { if (letter == 'c') return __cbi_failed_at(done); errno = EILSEQ; return done; }
                if (w) w[d] = c;
#endif
#ifdef __CBI_MADE__
                if (s && made && d + 1 >= room) { longer = malloc(2 * room); for (length = 0; length < d; length++) longer[length] = s[length]; free(s); s = longer; room = 2 * room; length = form - set - 1; }
#endif
                if (s) s[d] = c;
                d++;
                if (d == width) { c = -1; break; }
                c = __cbi_take(from);
            }
            __cbi_give(from, c);
            if (d == 0) return done;
            if (letter != 'c') {
#ifdef __CBI_WIDE__
                if (w) w[d] = 0;
#endif
                if (s) s[d] = 0;
            }
#ifdef __CBI_MADE__
            if (s && made) *va_arg(more, char **) = s;
#endif
            if (!drop) done++;
            continue;
        }
#ifdef __CBI_FLOATS__
        if (letter == 'f' || letter == 'e' || letter == 'g' || letter == 'a' || letter == 'E' || letter == 'G' || letter == 'F' || letter == 'A') {
            if (width == 0 || width > 300) width = 300;
            d = __cbi_real_word(from, word, width);
            if (d == 0) { if (from->ended) return __cbi_failed_at(done); return done; }
            if (!drop) { done++; if (size > 0) *va_arg(more, double *) = strtod(word, 0); else *va_arg(more, float *) = strtof(word, 0); }
            continue;
        }
#endif
        base = letter == 'x' || letter == 'X' || letter == 'p' ? 16 : letter == 'o' ? 8 : letter == 'i' ? 0 : letter == 'd' || letter == 'u' ? 10 : -1;
        if (base < 0) return done;
        minus = 0; begun = 0; n = 0; high = 0; wide = 0;
        c = __cbi_take(from);
        if (c == -1) return __cbi_failed_at(done);
        if (width == 0) width = 2147483647;
        if (c == '-' || c == '+') { minus = c == '-'; width--; c = width > 0 ? __cbi_take(from) : -1; }
        if (c == '0' && (base == 0 || base == 16)) {
            begun = 1; width--; c = width > 0 ? __cbi_take(from) : -1;
            if (c == 'x' || c == 'X') { base = 16; width--; c = width > 0 ? __cbi_take(from) : -1; } else if (base == 0) base = 8;
        } else if (base == 0) base = 10;
        while (c != -1) {
            if (c >= '0' && c <= '9') d = c - '0'; else if (c >= 'a' && c <= 'f') d = c - 'a' + 10; else if (c >= 'A' && c <= 'F') d = c - 'A' + 10; else d = 99;
            if (d >= base) break;
            begun = 1;
            if (size >= 2) {
                part = (n & 65535u) * base + d; carry = (n >> 16) * base + (part >> 16); n = part & 65535u | carry << 16; carry = carry >> 16;
                if (high > (4294967295u - carry) / base) wide = 1;
                high = high * base + carry;
            } else {
                if (n > (4294967295u - d) / base) wide = 1;
                n = n * base + d;
            }
            width--;
            c = width > 0 ? __cbi_take(from) : -1;
        }
        __cbi_give(from, c);
        if (!begun) return done;
        part = size >= 2 ? high : n;
        carry = size >= 2 ? n : 0u;
        if (letter == 'd' || letter == 'i') {
            if (wide || part > 2147483648u || part == 2147483648u && (!minus || carry)) { wide = 1; part = minus ? 2147483648u : 2147483647u; carry = minus ? 0u : 4294967295u; }
        } else if (wide) { part = 4294967295u; carry = part; minus = 0; }
        if (wide) errno = ERANGE;
        if (size >= 2) { high = part; n = carry; } else n = part;
        if (minus) { n = -n; if (size >= 2) high = ~high + (n == 0u); }
        if (!drop) { __cbi_keep(n, high, (letter == 'd' || letter == 'i') != other, size, &more); done++; }
    }
    return done;
}
int vfscanf(struct __cbi_FILE *f, const char *form, va_list more) { struct __cbi_source from; from.at = 0; from.count = 0; from.file = f; return __cbi_scan(&from, form, more); }
int vscanf(const char *form, va_list more) { return vfscanf(&__cbi_in, form, more); }
int scanf(const char *form, ...) { va_list more; va_start(more, form); return vscanf(form, more); }
int fscanf(struct __cbi_FILE *f, const char *form, ...) { va_list more; va_start(more, form); return vfscanf(f, form, more); }
int vsscanf(const char *s, const char *form, va_list more) { struct __cbi_source from; from.at = s; from.count = 0; from.file = 0; return __cbi_scan(&from, form, more); }
int sscanf(const char *s, const char *form, ...) { va_list more; va_start(more, form); return vsscanf(s, form, more); }
int getdelim(char **line, unsigned *size, int end, struct __cbi_FILE *f) {
    int n = 0; int c; char *more; int k;
    if (!*line || *size == 0u) { *line = malloc(120); *size = 120; }
    while ((c = fgetc(f)) != -1) {
        if ((unsigned)n + 2u > *size) { more = malloc(2u * *size); for (k = 0; k < n; k++) more[k] = (*line)[k]; free(*line); *line = more; *size = 2u * *size; }
        (*line)[n] = c; n++;
        if (c == end) break;
    }
    if (n == 0) return -1;
    (*line)[n] = 0;
    return n;
}
int getline(char **line, unsigned *size, struct __cbi_FILE *f) { return getdelim(line, size, '\n', f); }
