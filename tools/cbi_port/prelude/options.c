// getopt and getopt_long as glibc has them: words that are no options come behind those that are.
#include <getopt.h>
#include <stdio.h>
#include <string.h>
char *optarg;
int optind = 1;
int opterr = 1;
int optopt = '?';
// `order` is 0 where words are put behind options, 1 where the first word ends them, 2 where a word is the option 1.
struct __cbi_option_state { char *next; int first; int last; int begun; int order; int tells; int fault; };
struct __cbi_option_state __cbi_options;
void __cbi_option_swap(char **words) {
    int first = __cbi_options.first; int last = __cbi_options.last; int n; int k; char *word;
    for (n = last; n < optind; n++) {
        word = words[n];
        for (k = n; k > first + (n - last); k--) words[k] = words[k - 1];
        words[first + (n - last)] = word;
    }
    __cbi_options.first = first + optind - last;
    __cbi_options.last = optind;
}
int __cbi_option_fault(const char *program, const char *what, const char *dashes, const char *name, const char *rest) {
#ifdef __CBI_STDERR__
    if (__cbi_options.tells) fprintf(&__cbi_errors, "%s: %s'%s%s'%s\n", program, what, dashes, name, rest);
#endif
    return '?';
}
int __cbi_option_letter_fault(const char *program, const char *what, int letter) {
#ifdef __CBI_STDERR__
    if (__cbi_options.tells) fprintf(&__cbi_errors, "%s: %s -- '%c'\n", program, what, letter);
#endif
    __cbi_options.fault = letter;
    return '?';
}
int __cbi_option_several(const char *program, const char *dashes, unsigned length, const struct option *longs, int first, int only) {
    const char *next = __cbi_options.next;
#ifdef __CBI_STDERR__
    int n;
    if (__cbi_options.tells) {
        fprintf(&__cbi_errors, "%s: option '%s%s' is ambiguous; possibilities:", program, dashes, next);
        for (n = 0; longs[n].name; n++)
            if (strncmp(longs[n].name, next, length) == 0 && (n == first || only || longs[n].has_arg != longs[first].has_arg || longs[n].flag != longs[first].flag || longs[n].val != longs[first].val))
                fprintf(&__cbi_errors, " '%s%s'", dashes, longs[n].name);
        fputs("\n", &__cbi_errors);
    }
#endif
    __cbi_options.next = __cbi_options.next + strlen(next);
    optind++;
    __cbi_options.fault = 0;
    return '?';
}
int __cbi_option_long(int count, char **words, const char *letters, const struct option *longs, int *at, int only, const char *dashes) {
    const char *next = __cbi_options.next; unsigned length = 0; int found = -1; int n; int several = 0;
    while (next[length] && next[length] != '=') length++;
    for (n = 0; longs[n].name && found < 0; n++) if (strncmp(longs[n].name, next, length) == 0 && strlen(longs[n].name) == length) found = n;
    if (found < 0) for (n = 0; longs[n].name; n++) {
        if (strncmp(longs[n].name, next, length)) continue;
        if (found < 0) found = n;
        else if (only || longs[n].has_arg != longs[found].has_arg || longs[n].flag != longs[found].flag || longs[n].val != longs[found].val) several = 1;
    }
    if (several) return __cbi_option_several(words[0], dashes, length, longs, found, only);
    if (found < 0) {
        if (only && words[optind][1] != '-' && strchr(letters, *next)) return -1;
        __cbi_options.next = 0;
        optind++;
        __cbi_options.fault = 0;
        return __cbi_option_fault(words[0], "unrecognized option ", dashes, next, "");
    }
    optind++;
    __cbi_options.next = 0;
    if (next[length]) {
        if (!longs[found].has_arg) { __cbi_options.fault = longs[found].val; return __cbi_option_fault(words[0], "option ", dashes, longs[found].name, " doesn't allow an argument"); }
        optarg = (char *)next + length + 1;
    } else if (longs[found].has_arg == 1) {
        if (optind >= count) { __cbi_options.fault = longs[found].val; __cbi_option_fault(words[0], "option ", dashes, longs[found].name, " requires an argument"); return *letters == ':' ? ':' : '?'; }
        optarg = words[optind];
        optind++;
    }
    if (at) *at = found;
    if (longs[found].flag) { *longs[found].flag = longs[found].val; return 0; }
    return longs[found].val;
}
int __cbi_option_letter(int count, char **words, const char *letters) {
    char *next = __cbi_options.next; int letter = *next; const char *found = strchr(letters, letter);
    next++;
    if (!*next) optind++;
    __cbi_options.next = next;
    if (!found || letter == ':' || letter == ';') return __cbi_option_letter_fault(words[0], "invalid option", letter);
    if (found[1] != ':') return letter;
    __cbi_options.next = 0;
    if (*next) { optarg = next; optind++; return letter; }
    if (found[2] == ':') return letter;
    if (optind == count) { __cbi_option_letter_fault(words[0], "option requires an argument", letter); return *letters == ':' ? ':' : '?'; }
    optarg = words[optind];
    optind++;
    return letter;
}
int __cbi_option_is_word(char **words) { return words[optind][0] != '-' || !words[optind][1]; }
// Goes to the next option; -1 behind the last one, 1 for a word that is one, else 0.
int __cbi_option_ahead(int count, char **words) {
    if (__cbi_options.last > optind) __cbi_options.last = optind;
    if (__cbi_options.first > optind) __cbi_options.first = optind;
    if (__cbi_options.order == 0) {
        if (__cbi_options.first != __cbi_options.last && __cbi_options.last != optind) __cbi_option_swap(words);
        else if (__cbi_options.last != optind) __cbi_options.first = optind;
        while (optind < count && __cbi_option_is_word(words)) optind++;
        __cbi_options.last = optind;
    }
    if (optind != count && strcmp(words[optind], "--") == 0) {
        optind++;
        if (__cbi_options.first != __cbi_options.last && __cbi_options.last != optind) __cbi_option_swap(words);
        else if (__cbi_options.first == __cbi_options.last) __cbi_options.first = optind;
        __cbi_options.last = count;
        optind = count;
    }
    if (optind == count) { if (__cbi_options.first != __cbi_options.last) optind = __cbi_options.first; return -1; }
    if (!__cbi_option_is_word(words)) return 0;
    if (__cbi_options.order == 1) return -1;
    optarg = words[optind];
    optind++;
    return 1;
}
int __cbi_option(int count, char **words, const char *letters, const struct option *longs, int *at, int only) {
    int found;
    if (count < 1) return -1;
    optarg = 0;
    if (optind == 0 || !__cbi_options.begun) {
        if (optind == 0) optind = 1;
        __cbi_options.first = optind; __cbi_options.last = optind; __cbi_options.next = 0; __cbi_options.begun = 1;
        __cbi_options.order = *letters == '-' ? 2 : *letters == '+';
    }
    if (*letters == '-' || *letters == '+') letters++;
    __cbi_options.tells = opterr && *letters != ':';
    if (!__cbi_options.next || !*__cbi_options.next) {
        found = __cbi_option_ahead(count, words);
        if (found) return found;
        __cbi_options.next = words[optind] + 1;
        if (longs && words[optind][1] == '-') { __cbi_options.next = words[optind] + 2; return __cbi_option_long(count, words, letters, longs, at, only, "--"); }
        if (longs && only && (words[optind][2] || !strchr(letters, words[optind][1]))) {
            found = __cbi_option_long(count, words, letters, longs, at, only, "-");
            if (found != -1) return found;
        }
    }
    return __cbi_option_letter(count, words, letters);
}
int __cbi_option_told(int found) { optopt = __cbi_options.fault; return found; }
int getopt(int count, char *const *words, const char *letters) { return __cbi_option_told(__cbi_option(count, (char **)words, letters, 0, 0, 0)); }
int getopt_long(int count, char *const *words, const char *letters, const struct option *longs, int *at) { return __cbi_option_told(__cbi_option(count, (char **)words, letters, longs, at, 0)); }
int getopt_long_only(int count, char *const *words, const char *letters, const struct option *longs, int *at) { return __cbi_option_told(__cbi_option(count, (char **)words, letters, longs, at, 1)); }
