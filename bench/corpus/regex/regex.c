#include <stdio.h>
#include <stdlib.h>
#define PATTERN 40
#define TEXT 60
#define NODES 64
#define CHAR 0
#define ANY 1
#define SET 2
#define START 3
#define END 4
#define GROUP 5

/* Finds patterns in lines. The first line is a pattern: characters, `.`,
 * [abc], [^a-z], ^ and $, (ab|c) groups, each with * + ? or {m,n} behind it,
 * and \ before a character that is meant as it is. Of each further line the
 * leftmost longest match is written. */

struct piece {
    int kind;
    int letter;
    int from;
    int to;
    int negated;
    int least;
    int most;
    int inner;
    int other;
    int follow;
};

char pattern[PATTERN];
char text[TEXT];
struct piece pieces[NODES];
int made;
int at;
int bad;
int length;
int steps;
int longest;

int read_line(char *line, int room)
{
    int c = getchar();
    int n = 0;
    if (c == EOF)
        return 0;
    while (c != '\n' && c != EOF) {
        if (n < room - 1) {
            line[n] = c;
            n++;
        }
        c = getchar();
    }
    line[n] = '\0';
    return 1;
}

int new_piece(int kind)
{
    if (made == NODES) {
        bad = 1;
        return NODES - 1;
    }
    pieces[made].kind = kind;
    pieces[made].letter = 0;
    pieces[made].from = 0;
    pieces[made].to = 0;
    pieces[made].negated = 0;
    pieces[made].least = 1;
    pieces[made].most = 1;
    pieces[made].inner = -1;
    pieces[made].other = -1;
    pieces[made].follow = -1;
    made++;
    return made - 1;
}

int alternatives(void);

int small_number(void)
{
    int n = 0;
    while (pattern[at] >= '0' && pattern[at] <= '9') {
        n = 10 * n + (pattern[at] - '0');
        if (n > 50)
            n = 50;
        at++;
    }
    return n;
}

void repetition(int piece)
{
    int c = pattern[at];
    if (c == '*') {
        pieces[piece].least = 0;
        pieces[piece].most = TEXT;
        at++;
    } else if (c == '+') {
        pieces[piece].most = TEXT;
        at++;
    } else if (c == '?') {
        pieces[piece].least = 0;
        at++;
    } else if (c == '{') {
        at++;
        pieces[piece].least = small_number();
        pieces[piece].most = pieces[piece].least;
        if (pattern[at] == ',') {
            at++;
            pieces[piece].most = small_number();
        }
        if (pattern[at] != '}' || pieces[piece].most < pieces[piece].least)
            bad = 1;
        else
            at++;
    }
}

int set(void)
{
    int piece = new_piece(SET);
    if (pattern[at] == '^') {
        pieces[piece].negated = 1;
        at++;
    }
    pieces[piece].from = at;
    while (pattern[at] && (pattern[at] != ']' || at == pieces[piece].from))
        at++;
    pieces[piece].to = at;
    if (pattern[at] != ']')
        bad = 1;
    else
        at++;
    return piece;
}

int single(void)
{
    int piece;
    int c = pattern[at];
    at++;
    if (c == '(') {
        piece = new_piece(GROUP);
        pieces[piece].inner = alternatives();
        if (pattern[at] != ')')
            bad = 1;
        else
            at++;
    } else if (c == '[') {
        piece = set();
    } else if (c == '.') {
        piece = new_piece(ANY);
    } else if (c == '^') {
        piece = new_piece(START);
    } else if (c == '$') {
        piece = new_piece(END);
    } else {
        if (c == '\\' && pattern[at]) {
            c = pattern[at];
            at++;
        } else if (c == '*' || c == '+' || c == '?' || c == '{') {
            bad = 1;
        }
        piece = new_piece(CHAR);
        pieces[piece].letter = c;
    }
    repetition(piece);
    return piece;
}

int sequence(void)
{
    int first = -1;
    int last = -1;
    int piece;
    while (pattern[at] && pattern[at] != '|' && pattern[at] != ')' && !bad) {
        piece = single();
        if (first < 0)
            first = piece;
        else
            pieces[last].follow = piece;
        last = piece;
    }
    return first;
}

/* A list of sequences; each stands in a piece of its own. */
int alternatives(void)
{
    int first = new_piece(GROUP);
    int last = first;
    int piece;
    pieces[first].inner = sequence();
    while (pattern[at] == '|' && !bad) {
        at++;
        piece = new_piece(GROUP);
        pieces[piece].inner = sequence();
        pieces[last].other = piece;
        last = piece;
    }
    return first;
}

int in_set(struct piece *set, int c)
{
    int i = set->from;
    int found = 0;
    while (i < set->to) {
        if (i + 2 < set->to && pattern[i + 1] == '-') {
            if (c >= pattern[i] && c <= pattern[i + 2])
                found = 1;
            i += 3;
        } else {
            if (c == pattern[i])
                found = 1;
            i++;
        }
    }
    return found != set->negated;
}

/* Whether a piece takes the character at a place. */
int takes(struct piece *piece, int place)
{
    if (place >= length)
        return 0;
    if (piece->kind == ANY)
        return 1;
    if (piece->kind == SET)
        return in_set(piece, text[place]);
    return piece->letter == text[place];
}

/* What is still to be matched: pieces, with how often the first has been. */
struct rest {
    int piece;
    int count;
    int since;
    struct rest *then;
};

void match(int piece, int count, int since, int place, struct rest *then);

void go_on(struct rest *rest, int place)
{
    if (rest == NULL) {
        if (place > longest)
            longest = place;
        return;
    }
    match(rest->piece, rest->count, rest->since, place, rest->then);
}

void match_group(int piece, int count, int place, struct rest *then)
{
    struct rest again;
    int choice;
    again.piece = piece;
    again.count = count + 1;
    again.since = place;
    again.then = then;
    for (choice = pieces[piece].inner; choice >= 0; choice = pieces[choice].other) {
        if (pieces[choice].inner < 0)
            go_on(&again, place);
        else
            match(pieces[choice].inner, 0, -1, place, &again);
    }
}

void match(int piece, int count, int since, int place, struct rest *then)
{
    struct piece *it = &pieces[piece];
    steps++;
    if (steps > 2000)
        return;
    if (it->kind == START || it->kind == END) {
        if (place != (it->kind == START ? 0 : length))
            return;
        if (it->follow >= 0)
            match(it->follow, 0, -1, place, then);
        else
            go_on(then, place);
        return;
    }
    if (count < it->most && since != place) {
        if (it->kind == GROUP)
            match_group(piece, count, place, then);
        else if (takes(it, place))
            match(piece, count + 1, place, place + 1, then);
    }
    if (count >= it->least || since == place) {
        if (it->follow >= 0)
            match(it->follow, 0, -1, place, then);
        else
            go_on(then, place);
    }
}

void search(void)
{
    int start;
    int whole = 0;
    int i;
    struct rest *nothing = NULL;
    length = 0;
    while (text[length])
        length++;
    for (start = 0; start <= length; start++) {
        longest = -1;
        steps = 0;
        for (i = whole; i >= 0; i = pieces[i].other) {
            if (pieces[i].inner < 0)
                go_on(nothing, start);
            else
                match(pieces[i].inner, 0, -1, start, nothing);
        }
        if (longest >= 0) {
            printf("%d-%d:", start, longest);
            for (i = start; i < longest; i++)
                putchar(text[i]);
            printf("%s\n", steps > 2000 ? " (given up)" : "");
            return;
        }
    }
    puts("none");
}

int main(void)
{
    if (!read_line(pattern, PATTERN))
        return 1;
    alternatives();
    if (bad || pattern[at]) {
        printf("bad pattern at %d\n", at);
        return 1;
    }
    while (read_line(text, TEXT))
        search();
    printf("%d pieces\n", made);
    return 0;
}
