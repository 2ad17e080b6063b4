// Regular expressions of POSIX (9.3, 9.4) with what glibc has beside them. A form becomes a tree, the tree an automaton; the longest match from the
// leftmost place is found by going through the text with all states at once, and its parts by walking once more, where each fork takes the first way
// from which the match's end is reached. Only a form that names its own parts (\1) is searched by going back.
#include <ctype.h>
#include <regex.h>
#include <stdlib.h>
#include <string.h>
#define T_END 0
#define T_CHAR 1
#define T_OPEN 2
#define T_CLOSE 3
#define T_OR 4
#define T_STAR 5
#define T_PLUS 6
#define T_MAYBE 7
#define T_TIMES 8
#define T_UNTIMES 9
#define T_ANCHOR 10
#define T_ANY 11
#define T_BRACKET 12
#define T_REF 13
#define T_KIND 14
#define T_LONE 15
// Kinds of trees, and of states but for the last three. An anchor's kind is A_ and what it stands at.
#define K_NOTHING 0
#define K_CHAR 1
#define K_ANY 2
#define K_SET 3
#define K_ANCHOR 4
#define K_REF 5
#define K_BOTH 6
#define K_EITHER 7
#define K_PART 8
#define K_TIMES 9
#define K_FORK 10
#define K_CLOSE 11
#define K_MATCH 12
#define A_BEGIN 0
#define A_END 1
#define A_EDGE 2
#define A_NO_EDGE 3
#define A_WORD 4
#define A_WORD_END 5
#define A_FIRST 6
#define A_LAST 7
struct __cbi_re_tree { int kind; int a; int b; int c; };
struct __cbi_re_state { int kind; int a; int b; int c; };
struct __cbi_regex { struct __cbi_re_tree *trees; struct __cbi_re_state *states; unsigned *sets; int *map; int grown; int made; int sets_made; int parts; int begin; int flags; int refs; };
struct __cbi_re_reader { struct __cbi_regex *to; const char *form; int at; int length; int kind; int c; int error; int extended; int folds; int closed; int depth; };
int __cbi_re_fold(struct __cbi_re_reader *r, int c) { return r->folds ? toupper(c & 255) : c & 255; }
int __cbi_re_tree(struct __cbi_re_reader *r, int kind, int a, int b, int c) {
    struct __cbi_re_tree *t = r->to->trees + r->to->grown;
    t->kind = kind; t->a = a; t->b = b; t->c = c;
    r->to->grown++;
    return r->to->grown - 1;
}
int __cbi_re_wrong(struct __cbi_re_reader *r, int error) { if (!r->error) r->error = error; r->kind = T_END; return 0; }
// What a backslash and a character are.
void __cbi_re_escaped(struct __cbi_re_reader *r, int c) {
    const char *anchors = "^$bB<>`'"; const char *at;
    r->kind = T_CHAR;
    r->c = c;
    if (c >= '1' && c <= '9') { r->kind = T_REF; r->c = c - '1'; }
    else if (c == 'w' || c == 'W' || c == 's' || c == 'S') r->kind = T_KIND;
    else if (c != '^' && c != '$' && (at = strchr(anchors, c))) { r->kind = T_ANCHOR; r->c = (int)(at - anchors); }
    else if (!r->extended) r->kind = c == '|' ? T_OR : c == '(' ? T_OPEN : c == ')' ? T_CLOSE : c == '{' ? T_TIMES : c == '}' ? T_UNTIMES : c == '+' ? T_PLUS : c == '?' ? T_MAYBE : T_CHAR;
}
// Reads a token at a place; gives its length. `here` says that `^` is an anchor there.
int __cbi_re_token(struct __cbi_re_reader *r, int at, int here) {
    int c;
    if (at >= r->length) { r->kind = T_END; r->c = 0; return 0; }
    c = r->form[at] & 255;
    r->c = __cbi_re_fold(r, c);
    r->kind = T_CHAR;
    if (c == '\\') {
        if (at + 1 >= r->length) { r->kind = T_LONE; return 1; }
        __cbi_re_escaped(r, r->form[at + 1] & 255);
        return 2;
    }
    if (c == '*') r->kind = T_STAR;
    else if (c == '[') r->kind = T_BRACKET;
    else if (c == '.') r->kind = T_ANY;
    else if (c == '^') { if (r->extended || here || at == 0) { r->kind = T_ANCHOR; r->c = A_BEGIN; } }
    else if (c == '$') {
        if (!r->extended && at + 1 < r->length) {
            __cbi_re_token(r, at + 1, 0);
            here = r->kind == T_OR || r->kind == T_CLOSE;
        } else here = 1;
        r->kind = here ? T_ANCHOR : T_CHAR;
        r->c = here ? A_END : '$';
    } else if (r->extended) r->kind = c == '|' ? T_OR : c == '(' ? T_OPEN : c == ')' ? T_CLOSE : c == '{' ? T_TIMES : c == '}' ? T_UNTIMES : c == '+' ? T_PLUS : c == '?' ? T_MAYBE : T_CHAR;
    return 1;
}
void __cbi_re_fetch(struct __cbi_re_reader *r, int here) { r->at += __cbi_re_token(r, r->at, here); }
int __cbi_re_new_set(struct __cbi_re_reader *r) { int n; for (n = 0; n < 8; n++) r->to->sets[8 * r->to->sets_made + n] = 0; r->to->sets_made++; return r->to->sets_made - 1; }
void __cbi_re_put(struct __cbi_re_reader *r, int set, int c) { r->to->sets[8 * set + c / 32] |= 1u << c % 32; }
int __cbi_re_in(struct __cbi_regex *to, int set, int c) { return (int)(to->sets[8 * set + c / 32] >> c % 32 & 1u); }
void __cbi_re_turn(struct __cbi_re_reader *r, int set) { int n; for (n = 0; n < 8; n++) r->to->sets[8 * set + n] = ~r->to->sets[8 * set + n]; }
int __cbi_re_is(const char *name, int c) {
    if (!strcmp(name, "alpha")) return isalpha(c) != 0;
    if (!strcmp(name, "digit")) return isdigit(c) != 0;
    if (!strcmp(name, "alnum")) return isalnum(c) != 0;
    if (!strcmp(name, "upper")) return isupper(c) != 0;
    if (!strcmp(name, "lower")) return islower(c) != 0;
    if (!strcmp(name, "space")) return isspace(c) != 0;
    if (!strcmp(name, "blank")) return isblank(c) != 0;
    if (!strcmp(name, "punct")) return ispunct(c) != 0;
    if (!strcmp(name, "print")) return isprint(c) != 0;
    if (!strcmp(name, "graph")) return isgraph(c) != 0;
    if (!strcmp(name, "cntrl")) return iscntrl(c) != 0;
    if (!strcmp(name, "xdigit")) return isxdigit(c) != 0;
    return -1;
}
int __cbi_re_class(struct __cbi_re_reader *r, int set, const char *name) {
    int c;
    if (r->folds && (!strcmp(name, "upper") || !strcmp(name, "lower"))) name = "alpha";
    if (__cbi_re_is(name, 0) < 0) return REG_ECTYPE;
    for (c = 0; c < 256; c++) if (__cbi_re_is(name, c)) __cbi_re_put(r, set, __cbi_re_fold(r, c));
    return 0;
}
// An element of a list: its kind is '.', '=' or ':' for those in brackets of their own, else 0; 'c' has its character.
int __cbi_re_element(struct __cbi_re_reader *r, char *name, int *kind, int hyphen) {
    int c; int n = 0;
    if (r->at >= r->length) return REG_EBRACK;
    c = r->form[r->at] & 255;
    *kind = 0;
    if (c == '[' && r->at + 1 < r->length && (r->form[r->at + 1] == '.' || r->form[r->at + 1] == '=' || r->form[r->at + 1] == ':')) {
        *kind = r->form[r->at + 1];
        r->at += 2;
        while (1) {
            if (r->at >= r->length || n >= 32) return REG_EBRACK;
            c = r->form[r->at] & 255;
            r->at++;
            if (r->at >= r->length) return REG_EBRACK;
            if (c == *kind && r->form[r->at] == ']') break;
            name[n] = *kind == ':' ? c : __cbi_re_fold(r, c);
            n++;
        }
        name[n] = 0;
        r->at++;
        return 0;
    }
    if (c == '-' && r->at + 2 < r->length && r->form[r->at + 1] == '-' && r->form[r->at + 2] == '-') r->at += 2;
    else if (c == '-' && !hyphen && !(r->at + 1 < r->length && r->form[r->at + 1] == ']')) return r->at + 1 >= r->length ? REG_EBRACK : REG_ERANGE;
    name[0] = __cbi_re_fold(r, c);
    name[1] = 0;
    r->at++;
    return 0;
}
int __cbi_re_range(struct __cbi_re_reader *r, int set, char *from, int kind, int first) {
    char to[40]; int other; int error = __cbi_re_element(r, to, &other, 1); int c;
    if (error) return error;
    if (kind == ':' || kind == '=' || other == ':' || other == '=') return REG_ERANGE;
    if (kind == '.' && strlen(from) != 1 || other == '.' && strlen(to) != 1) return REG_ECOLLATE;
    if ((from[0] & 255) > (to[0] & 255)) return REG_ERANGE;
    for (c = from[0] & 255; c <= (to[0] & 255); c++) __cbi_re_put(r, set, c);
    return 0;
}
int __cbi_re_list(struct __cbi_re_reader *r, int set) {
    char name[40]; int kind; int first = 1; int error;
    while (1) {
        error = __cbi_re_element(r, name, &kind, first);
        if (error) return error;
        first = 0;
        if (kind != ':' && kind != '=' && r->at >= r->length) return REG_EBRACK;
        if (kind != ':' && kind != '=' && r->form[r->at] == '-' && !(r->at + 2 < r->length && r->form[r->at + 1] == '-' && r->form[r->at + 2] == '-')) {
            if (r->at + 1 >= r->length) return REG_EBRACK;
            if (r->form[r->at + 1] != ']') {
                r->at++;
                error = __cbi_re_range(r, set, name, kind, first);
                if (error) return error;
                kind = -1;
            }
        }
        if (kind == ':') error = __cbi_re_class(r, set, name);
        else if (kind >= 0 && strlen(name) != 1 && kind) error = REG_ECOLLATE;
        else if (kind >= 0) __cbi_re_put(r, set, name[0] & 255);
        if (error) return error;
        if (r->at >= r->length) return REG_EBRACK;
        if (r->form[r->at] == ']') { r->at++; return 0; }
    }
}
int __cbi_re_bracket(struct __cbi_re_reader *r) {
    int set = __cbi_re_new_set(r); int turned = r->at < r->length && r->form[r->at] == '^'; int error;
    if (turned) r->at++;
    if (turned && r->to->flags & REG_NEWLINE) __cbi_re_put(r, set, '\n');
    if (r->at >= r->length) return __cbi_re_wrong(r, REG_BADPAT);
    error = __cbi_re_list(r, set);
    if (error) return __cbi_re_wrong(r, error);
    if (turned) __cbi_re_turn(r, set);
    return __cbi_re_tree(r, K_SET, set, 0, 0);
}
int __cbi_re_kind(struct __cbi_re_reader *r) {
    int set = __cbi_re_new_set(r);
    __cbi_re_class(r, set, r->c == 's' || r->c == 'S' ? "space" : "alnum");
    if (r->c == 'w' || r->c == 'W') __cbi_re_put(r, set, '_');
    if (r->c == 'W' || r->c == 'S') __cbi_re_turn(r, set);
    return __cbi_re_tree(r, K_SET, set, 0, 0);
}
int __cbi_re_number(struct __cbi_re_reader *r) {
    int n = -1;
    while (1) {
        __cbi_re_fetch(r, 0);
        if (r->kind == T_END) return -2;
        if (r->kind == T_UNTIMES || r->c == ',') return n;
        if (r->kind != T_CHAR || r->c < '0' || r->c > '9' || n == -2) n = -2;
        else n = n == -1 ? r->c - '0' : n > 3276 ? 32768 : n * 10 + (r->c - '0') > 32768 ? 32768 : n * 10 + (r->c - '0');
    }
}
int __cbi_re_times(struct __cbi_re_reader *r, int tree) {
    int least = r->kind == T_PLUS; int most = r->kind == T_MAYBE ? 1 : -1;
    if (r->kind == T_TIMES) {
        most = 0;
        least = __cbi_re_number(r);
        if (least == -1) { if (r->kind != T_CHAR || r->c != ',') return __cbi_re_wrong(r, REG_BADBR); least = 0; }
        if (least != -2) most = r->kind == T_UNTIMES ? least : r->kind == T_CHAR && r->c == ',' ? __cbi_re_number(r) : -2;
        if (least == -2 || most == -2) return __cbi_re_wrong(r, r->kind == T_END ? REG_EBRACE : REG_BADBR);
        if (most != -1 && least > most || r->kind != T_UNTIMES) return __cbi_re_wrong(r, REG_BADBR);
        if ((most == -1 ? least : most) > 32767) return __cbi_re_wrong(r, REG_ESIZE);
    }
    __cbi_re_fetch(r, 0);
    if (!tree || least == 0 && most == 0) return 0;
    return __cbi_re_tree(r, K_TIMES, tree, least, most);
}
int __cbi_re_part(struct __cbi_re_reader *r) {
    int number = r->to->parts; int tree = 0;
    r->to->parts++;
    r->depth++;
    __cbi_re_fetch(r, 1);
    if (r->depth > 60) return __cbi_re_wrong(r, REG_ESPACE);
    if (r->kind != T_CLOSE) {
        tree = __cbi_re_form(r);
        if (r->kind != T_CLOSE) return __cbi_re_wrong(r, REG_EPAREN);
    }
    r->depth--;
    if (number < 9) r->closed |= 1 << number;
    return __cbi_re_tree(r, K_PART, tree, number, 0);
}
// A single one of what a form has, before what says how often it stands.
int __cbi_re_single(struct __cbi_re_reader *r) {
    if (r->kind == T_OPEN) return __cbi_re_part(r);
    if (r->kind == T_BRACKET) return __cbi_re_bracket(r);
    if (r->kind == T_KIND) return __cbi_re_kind(r);
    if (r->kind == T_ANY) return __cbi_re_tree(r, K_ANY, 0, 0, 0);
    if (r->kind == T_LONE) return __cbi_re_wrong(r, REG_EESCAPE);
    if (r->kind == T_REF) {
        if (!(r->closed >> r->c & 1)) return __cbi_re_wrong(r, REG_ESUBREG);
        r->to->refs = 1;
        return __cbi_re_tree(r, K_REF, r->c, 0, 0);
    }
    if (r->kind == T_TIMES && !r->extended || r->extended && (r->kind == T_TIMES || r->kind == T_STAR || r->kind == T_PLUS || r->kind == T_MAYBE)) return __cbi_re_wrong(r, REG_BADRPT);
    if (r->kind == T_CLOSE && !r->extended) return __cbi_re_wrong(r, REG_EPAREN);
    return __cbi_re_tree(r, K_CHAR, r->c, 0, 0);
}
int __cbi_re_expression(struct __cbi_re_reader *r) {
    int tree;
    if (r->kind == T_OR || r->kind == T_END) return 0;
    if (r->kind == T_ANCHOR) { tree = __cbi_re_tree(r, K_ANCHOR, r->c, 0, 0); __cbi_re_fetch(r, 0); return tree; }
    tree = __cbi_re_single(r);
    if (r->error) return 0;
    __cbi_re_fetch(r, 0);
    while (r->kind == T_STAR || r->kind == T_PLUS || r->kind == T_MAYBE || r->kind == T_TIMES) {
        tree = __cbi_re_times(r, tree);
        if (r->error) return 0;
        if (!r->extended && (r->kind == T_STAR || r->kind == T_TIMES)) return __cbi_re_wrong(r, REG_BADRPT);
    }
    return tree;
}
int __cbi_re_branch(struct __cbi_re_reader *r) {
    int tree = __cbi_re_expression(r); int more;
    while (!r->error && r->kind != T_OR && r->kind != T_END && (r->depth == 0 || r->kind != T_CLOSE)) {
        more = __cbi_re_expression(r);
        tree = tree && more ? __cbi_re_tree(r, K_BOTH, tree, more, 0) : tree ? tree : more;
    }
    return tree;
}
int __cbi_re_form(struct __cbi_re_reader *r) {
    int closed = r->closed; int tree = __cbi_re_branch(r); int more; int other;
    while (!r->error && r->kind == T_OR) {
        other = r->closed;
        r->closed = closed;
        __cbi_re_fetch(r, 1);
        more = r->kind == T_OR || r->kind == T_END || r->depth && r->kind == T_CLOSE ? 0 : __cbi_re_branch(r);
        r->closed |= other;
        tree = __cbi_re_tree(r, K_EITHER, tree, more, 0);
    }
    return tree;
}
// How many states a tree asks for; at most 20001.
int __cbi_re_size(struct __cbi_regex *to, int tree) {
    struct __cbi_re_tree *t = to->trees + tree; int n; int times;
    if (t->kind == K_NOTHING) return 0;
    if (t->kind == K_BOTH || t->kind == K_EITHER) n = __cbi_re_size(to, t->a) + __cbi_re_size(to, t->b) + 1;
    else if (t->kind == K_PART) n = __cbi_re_size(to, t->a) + 2;
    else if (t->kind == K_TIMES) {
        n = __cbi_re_size(to, t->a) + 1;
        times = t->c > t->b ? t->c : t->b + 1;
        if (times > 20000 / n) return 20001;
        n = n * times;
    } else n = 1;
    return n > 20000 ? 20001 : n;
}
int __cbi_re_state(struct __cbi_regex *to, int kind, int a, int b, int c) {
    struct __cbi_re_state *s = to->states + to->made;
    s->kind = kind; s->a = a; s->b = b; s->c = c;
    to->made++;
    return to->made - 1;
}
// What stands often stands as copies; only the first one that need not stand is told so, and in copies nothing is, as glibc has it.
int __cbi_re_repeated(struct __cbi_regex *to, struct __cbi_re_tree *t, int next, int copy) {
    int n; int fork; int *ways; int count = t->c - t->b;
    int first = t->b == 0;
    if (t->c < 0) {
        fork = __cbi_re_state(to, K_FORK, 0, next, 0);
        n = __cbi_re_built(to, t->a, fork, !copy, copy || !first);
        to->states[fork].a = n;
        next = fork;
    } else if (count > 0) {
        ways = malloc((count + 1) * sizeof(int));
        ways[count] = next;
        for (n = count - 1; n >= 0; n--) ways[n] = __cbi_re_built(to, t->a, ways[n + 1], n == 0 && !copy, copy || !first || n > 0);
        fork = ways[0];
        for (n = 1; n <= count; n++) fork = __cbi_re_state(to, K_FORK, fork, ways[n], 0);
        free(ways);
        next = fork;
    }
    for (n = t->b; n > 0; n--) next = __cbi_re_built(to, t->a, next, 0, copy || n > 1);
    return next;
}
// The states of a tree, before those of what follows it. `optional` says that it need not stand, `copy` that it is a copy or in one.
int __cbi_re_built(struct __cbi_regex *to, int tree, int next, int optional, int copy) {
    struct __cbi_re_tree *t = to->trees + tree; int a; int b;
    if (t->kind == K_NOTHING) return next;
    if (t->kind == K_BOTH) return __cbi_re_built(to, t->a, __cbi_re_built(to, t->b, next, 0, copy), 0, copy);
    if (t->kind == K_EITHER) {
        a = __cbi_re_built(to, t->a, next, 0, copy);
        b = __cbi_re_built(to, t->b, next, 0, copy);
        return t->a ? __cbi_re_state(to, K_FORK, a, b, 0) : __cbi_re_state(to, K_FORK, b, a, 0);
    }
    if (t->kind == K_TIMES) return __cbi_re_repeated(to, t, next, copy);
    if (t->kind == K_PART) {
        next = __cbi_re_state(to, K_CLOSE, t->b, next, optional);
        a = t->a;
        while (to->trees[a].kind == K_PART) { to->map[to->trees[a].b] = to->map[t->b]; a = to->trees[a].a; }
        return __cbi_re_state(to, K_PART, t->b, __cbi_re_built(to, a, next, 0, copy), optional);
    }
    return __cbi_re_state(to, t->kind, t->kind == K_REF ? to->map[t->a] : t->a, next, 0);
}
void __cbi_re_free(struct __cbi_regex *to) { if (to->trees) free(to->trees); if (to->states) free(to->states); if (to->sets) free(to->sets); if (to->map) free(to->map); free(to); }
int regcomp(regex_t *to, const char *form, int flags) {
    struct __cbi_re_reader r; struct __cbi_regex *made = malloc(sizeof(struct __cbi_regex)); int tree; int n; int last;
    r.to = made; r.form = form; r.at = 0; r.length = strlen(form); r.error = 0; r.extended = flags & REG_EXTENDED; r.folds = flags & REG_ICASE; r.closed = 0; r.depth = 0;
    made->trees = malloc((3 * r.length + 8) * sizeof(struct __cbi_re_tree));
    made->sets = malloc(8 * (r.length + 1) * sizeof(unsigned));
    made->states = 0; made->map = 0; made->grown = 0; made->made = 0; made->sets_made = 0; made->parts = 0; made->flags = flags; made->refs = 0;
    __cbi_re_tree(&r, K_NOTHING, 0, 0, 0);
    __cbi_re_fetch(&r, 1);
    tree = __cbi_re_form(&r);
    n = r.error ? 0 : __cbi_re_size(made, tree) + 2;
    to->buffer = 0;
    to->re_nsub = made->parts;
    if (n > 20000) r.error = REG_ESPACE;
    if (r.error) { __cbi_re_free(made); return r.error; }
    made->states = malloc(n * sizeof(struct __cbi_re_state));
    made->map = malloc((made->parts + 1) * sizeof(int));
    for (n = 0; n <= made->parts; n++) made->map[n] = n;
    last = __cbi_re_state(made, K_MATCH, 0, 0, 0);
    made->begin = __cbi_re_built(made, tree, last, 0, 0);
    to->buffer = made;
    to->flags = flags;
    return 0;
}
struct __cbi_re_run { struct __cbi_regex *of; const char *text; int length; int flags; int best; int *part; int *saved; char *reach; };
int __cbi_re_letter(const char *text, int length, int at) { return at >= 0 && at < length && (isalnum(text[at] & 255) || text[at] == '_'); }
int __cbi_re_stands(struct __cbi_re_run *r, int what, int at) {
    int before = __cbi_re_letter(r->text, r->length, at - 1); int behind = __cbi_re_letter(r->text, r->length, at); int lines = r->of->flags & REG_NEWLINE;
    if (what == A_BEGIN) return at == 0 ? !(r->flags & REG_NOTBOL) : lines && r->text[at - 1] == '\n';
    if (what == A_END) return at == r->length ? !(r->flags & REG_NOTEOL) : lines && r->text[at] == '\n';
    if (what == A_EDGE) return before != behind;
    if (what == A_NO_EDGE) return before == behind;
    if (what == A_WORD) return !before && behind;
    if (what == A_WORD_END) return before && !behind;
    return what == A_FIRST ? at == 0 : at == r->length;
}
// Whether a state takes the character at a place.
int __cbi_re_takes(struct __cbi_re_run *r, struct __cbi_re_state *s, int at) {
    int c;
    if (at >= r->length || s->kind < K_CHAR || s->kind > K_SET) return 0;
    c = r->text[at] & 255;
    if (s->kind == K_ANY) return c != '\n' || !(r->of->flags & REG_NEWLINE);
    if (r->of->flags & REG_ICASE) c = toupper(c);
    return s->kind == K_CHAR ? c == s->a : __cbi_re_in(r->of, s->a, c);
}
// Adds a state and those that it leads to without a character; `seen` says at which place each was added last.
int __cbi_re_added(struct __cbi_re_run *r, int *row, int count, int *seen, int *todo, int state, int at) {
    int left = 1; struct __cbi_re_state *s;
    todo[0] = state;
    while (left > 0) {
        left--;
        state = todo[left];
        if (seen[state] == at + 1) continue;
        seen[state] = at + 1;
        s = r->of->states + state;
        if (s->kind == K_FORK) { todo[left] = s->b; todo[left + 1] = s->a; left += 2; }
        else if (s->kind == K_PART || s->kind == K_CLOSE || s->kind == K_ANCHOR && __cbi_re_stands(r, s->a, at)) { todo[left] = s->b; left++; }
        else if (s->kind == K_MATCH) r->best = at;
        else if (s->kind != K_ANCHOR) { row[count] = state; count++; }
    }
    return count;
}
// The end of the longest match from a place; -1 for none.
int __cbi_re_longest(struct __cbi_re_run *r, int from, int *room) {
    int made = r->of->made; int *row = room; int *other = room + made; int *seen = room + 2 * made; int *todo = room + 3 * made; int *swap; int count; int n; int k; int at = from;
    for (n = 0; n < made; n++) seen[n] = 0;
    r->best = -1;
    count = __cbi_re_added(r, row, 0, seen, todo, r->of->begin, at);
    while (count > 0 && at < r->length) {
        n = 0;
        for (k = 0; k < count; k++) if (__cbi_re_takes(r, r->of->states + row[k], at)) n = __cbi_re_added(r, other, n, seen, todo, r->of->states[row[k]].b, at + 1);
        swap = row; row = other; other = swap;
        count = n;
        at++;
    }
    return r->best;
}
// Marks from which states and places between two places the match's end is reached.
void __cbi_re_mark(struct __cbi_re_run *r, int from, int end) {
    int made = r->of->made; int at; int n; int more; int reached; struct __cbi_re_state *s; char *here; char *behind;
    for (at = end; at >= from; at--) {
        here = r->reach + (at - from) * made;
        behind = here + made;
        for (n = 0; n < made; n++) {
            s = r->of->states + n;
            here[n] = s->kind == K_MATCH ? at == end : at < end && __cbi_re_takes(r, s, at) && behind[s->b];
        }
        do {
            more = 0;
            for (n = 0; n < made; n++) {
                s = r->of->states + n;
                reached = s->kind == K_FORK ? here[s->a] || here[s->b] : s->kind == K_PART || s->kind == K_CLOSE ? here[s->b] : s->kind == K_ANCHOR ? here[s->b] && __cbi_re_stands(r, s->a, at) : 0;
                if (reached && !here[n]) { here[n] = 1; more = 1; }
            }
        } while (more);
    }
}
// What a state says of the parts: where one begins, and where it ends. An empty turn of what need not stand leaves those of the turn before.
void __cbi_re_noted(struct __cbi_re_run *r, struct __cbi_re_state *s, int at) {
    int *part = r->part; int n; int all = 2 * r->of->parts;
    if (s->kind == K_PART) { part[2 * s->a] = at; part[2 * s->a + 1] = -1; }
    if (s->kind != K_CLOSE) return;
    if (part[2 * s->a] < at) { part[2 * s->a + 1] = at; for (n = 0; n < all; n++) r->saved[n] = part[n]; }
    else if (s->c && r->saved[2 * s->a] != -1) for (n = 0; n < all; n++) part[n] = r->saved[n];
    else part[2 * s->a + 1] = at;
}
// Walks from the match's begin to its end.
void __cbi_re_walk(struct __cbi_re_run *r, int from, int end, int *seen) {
    int made = r->of->made; int at = from; int state = r->of->begin; int n; struct __cbi_re_state *s; char *here;
    for (n = 0; n < made; n++) seen[n] = 0;
    while (1) {
        s = r->of->states + state;
        __cbi_re_noted(r, s, at);
        if (s->kind == K_MATCH) return;
        here = r->reach + (at - from) * made;
        if (s->kind == K_FORK) {
            seen[state] = at + 1;
            state = !here[s->a] || here[s->b] && seen[s->a] == at + 1 ? s->b : s->a;
        } else {
            if (s->kind >= K_CHAR && s->kind <= K_SET) at++; else seen[state] = at + 1;
            state = s->b;
        }
    }
}
// A choice that is left: a state, a place, and the parts as they were.
struct __cbi_re_choice { int state; int at; int *part; struct __cbi_re_choice *below; };
struct __cbi_re_choice *__cbi_re_kept(struct __cbi_re_run *r, int state, int at, struct __cbi_re_choice *below) {
    struct __cbi_re_choice *c = malloc(sizeof(struct __cbi_re_choice)); int n; int all = 4 * r->of->parts;
    c->state = state; c->at = at; c->below = below;
    c->part = malloc((all + 1) * sizeof(int));
    for (n = 0; n < all; n++) c->part[n] = n < all / 2 ? r->part[n] : r->saved[n - all / 2];
    return c;
}
int __cbi_re_repeats(struct __cbi_re_run *r, int part, int at) {
    int from = r->part[2 * part]; int to = r->part[2 * part + 1]; int n; int a; int b;
    if (from < 0 || to < 0 || at + (to - from) > r->length) return -1;
    for (n = 0; n < to - from; n++) {
        a = r->text[from + n] & 255; b = r->text[at + n] & 255;
        if (r->of->flags & REG_ICASE ? toupper(a) != toupper(b) : a != b) return -1;
    }
    return to - from;
}
// The longest match of a form that names its own parts, by trying all ways; of those that are as long the first one. `best` is -2 where there are too many.
int __cbi_re_tried(struct __cbi_re_run *r, int from, int *found) {
    struct __cbi_re_choice *left; struct __cbi_re_choice *top; struct __cbi_re_state *s; int n; int all = 2 * r->of->parts; int state; int at; int best = -1; int still; int steps = 0;
    for (n = 0; n < all; n++) { r->part[n] = -1; r->saved[n] = -1; }
    left = __cbi_re_kept(r, r->of->begin, from, 0);
    while (left) {
        top = left;
        left = top->below;
        state = top->state; at = top->at;
        for (n = 0; n < all; n++) { r->part[n] = top->part[n]; r->saved[n] = top->part[all + n]; }
        free(top->part);
        free(top);
        still = 0;
        while (state >= 0) {
            s = r->of->states + state;
            __cbi_re_noted(r, s, at);
            if (s->kind == K_MATCH) { if (at > best) { best = at; for (n = 0; n < all; n++) found[n] = r->part[n]; } break; }
            steps++;
            if (still > 2 * r->of->made || steps > 1000000) break;
            still++;
            if (s->kind == K_FORK) { left = __cbi_re_kept(r, s->b, at, left); state = s->a; }
            else if (s->kind == K_REF) { n = __cbi_re_repeats(r, s->a, at); if (n < 0) break; if (n > 0) still = 0; at += n; state = s->b; }
            else if (s->kind == K_PART || s->kind == K_CLOSE || s->kind == K_ANCHOR && __cbi_re_stands(r, s->a, at)) state = s->b;
            else if (__cbi_re_takes(r, s, at)) { at++; still = 0; state = s->b; }
            else break;
        }
        if (best == r->length || steps > 1000000) while (left) { top = left; left = top->below; free(top->part); free(top); }
    }
    if (steps > 1000000) r->best = -2;
    return best;
}
void __cbi_re_parts(struct __cbi_re_run *r, int from, int end, int *room) {
    int n; int all = 2 * r->of->parts;
    for (n = 0; n < all; n++) { r->part[n] = -1; r->saved[n] = -1; }
    r->reach = malloc((end - from + 2) * r->of->made);
    for (n = 0; n < r->of->made; n++) r->reach[(end - from + 1) * r->of->made + n] = 0;
    __cbi_re_mark(r, from, end);
    __cbi_re_walk(r, from, end, room);
    free(r->reach);
}
void __cbi_re_given(struct __cbi_re_run *r, unsigned count, regmatch_t *to, int from, int end, int shift) {
    unsigned n; int k;
    for (n = 0; n < count; n++) { to[n].rm_so = -1; to[n].rm_eo = -1; }
    if (count > 0) { to[0].rm_so = from + shift; to[0].rm_eo = end + shift; }
    for (n = 1; n < count && n <= (unsigned)r->of->parts; n++) {
        k = r->of->map[n - 1];
        if (r->part[2 * k] >= 0 && r->part[2 * k + 1] >= 0) { to[n].rm_so = r->part[2 * k] + shift; to[n].rm_eo = r->part[2 * k + 1] + shift; }
    }
}
int regexec(const regex_t *form, const char *text, size_t count, regmatch_t *to, int flags) {
    struct __cbi_re_run r; int from; int end = -1; int *room; int *found; int n; int shift = 0;
    r.of = form->buffer;
    r.text = text; r.flags = flags; r.length = strlen(text); r.reach = 0; r.best = -1;
    if (flags & REG_STARTEND) { shift = to[0].rm_so; r.text = text + shift; r.length = to[0].rm_eo - shift; }
    room = malloc((5 * r.of->made + 8) * sizeof(int));
    r.part = malloc((2 * r.of->parts + 1) * sizeof(int));
    r.saved = malloc((2 * r.of->parts + 1) * sizeof(int));
    found = malloc((2 * r.of->parts + 1) * sizeof(int));
    for (from = 0; from <= r.length && end < 0; from++) end = r.of->refs ? __cbi_re_tried(&r, from, found) : __cbi_re_longest(&r, from, room);
    from--;
    if (r.best == -2) end = -1;
    if (end >= 0 && !(form->flags & REG_NOSUB)) {
        if (r.of->refs) for (n = 0; n < 2 * r.of->parts; n++) r.part[n] = found[n];
        else if (count > 1 && r.of->parts) __cbi_re_parts(&r, from, end, room);
        __cbi_re_given(&r, count, to, from, end, shift);
    }
    free(room); free(r.part); free(r.saved); free(found);
    return end >= 0 ? 0 : r.best == -2 ? REG_ESPACE : REG_NOMATCH;
}
void regfree(regex_t *form) { if (form->buffer) __cbi_re_free(form->buffer); form->buffer = 0; }
const char *__cbi_re_text(int error) {
    return error == 0 ? "Success" : error == 1 ? "No match" : error == 2 ? "Invalid regular expression" : error == 3 ? "Invalid collation character"
        : error == 4 ? "Invalid character class name" : error == 5 ? "Trailing backslash" : error == 6 ? "Invalid back reference"
        : error == 7 ? "Unmatched [, [^, [:, [., or [=" : error == 8 ? "Unmatched ( or \\(" : error == 9 ? "Unmatched \\{" : error == 10 ? "Invalid content of \\{\\}"
        : error == 11 ? "Invalid range end" : error == 12 ? "Memory exhausted" : error == 13 ? "Invalid preceding regular expression"
        : error == 14 ? "Premature end of regular expression" : error == 15 ? "Regular expression too big" : "Unmatched ) or \\)";
}
size_t regerror(int error, const regex_t *form, char *to, size_t room) {
    const char *text = __cbi_re_text(error); size_t length = strlen(text); size_t n;
    for (n = 0; n < room; n++) { to[n] = n < length && n + 1 < room ? text[n] : 0; if (!to[n]) break; }
    return length + 1;
}
