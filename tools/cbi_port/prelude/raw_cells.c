// Text of the dialect, of which only what is named comes in: memory as cells.
struct cbi_int { int value; };
struct cbi_unsigned { unsigned value; };
void *cbi_malloc(unsigned count) {
    int *at = malloc(count + 1);
    if (at == NULL) return NULL;
    *at = count;
    return at + 1;
}
unsigned cbi_size_of(void *old) {
    int *at = old;
    return *(at - 1);
}
void cbi_free(void *old) {
    int *at = old;
    if (at != NULL) free(at - 1);
}
void cbi_spell(char *at, char *text, unsigned length, unsigned room) {
    unsigned n;
    for (n = 0; n < length; n++) at[n] = text[n];
    for (; n < room; n++) at[n] = 0;
}
char *cbi_fill_char(char *at, int value, unsigned count) {
    unsigned n;
    for (n = 0; n < count; n++) at[n] = value;
    return at;
}
int cbi_compare_char(char *a, char *b, unsigned count) {
    unsigned n;
    for (n = 0; n < count; n++) if (a[n] != b[n]) return (a[n] & 255) - (b[n] & 255);
    return 0;
}
void cbi_clear_char(char *at, unsigned count) {
    unsigned n;
    for (n = 0; n < count; n++) at[n] = 0;
}
void cbi_clear_int(int *at, unsigned count) {
    unsigned n;
    for (n = 0; n < count; n++) at[n] = 0;
}
void cbi_clear_unsigned(unsigned *at, unsigned count) {
    unsigned n;
    for (n = 0; n < count; n++) at[n] = 0;
}
void cbi_clear_pointers(void **at, unsigned count) {
    unsigned n;
    for (n = 0; n < count; n++) at[n] = NULL;
}
void cbi_clear_long(struct cbi_long *at, unsigned count) {
    unsigned n;
    for (n = 0; n < count; n++) cbi_long_of(at + n, 0u, 0u);
}
void cbi_no_function(int number) {
    int *nothing = NULL;
    if (number == 0) *nothing = 0;
    cbi_other_kind();
}
void cbi_other_kind(void) {
    int cell = 0;
    char *other = (char *)(void *)&cell;
    cell = *other;
}
unsigned cbi_length(char *text) {
    unsigned n = 0;
    while (text[n]) n++;
    return n;
}
int cbi_first_line(char **words) {
    int count = 1;
    int c = getchar();
    int room = 0;
    int length = 0;
    char *old;
    int n;
    words[0] = malloc(5);
    cbi_spell(words[0], "prog", 5, 5);
    while (c != EOF && c != 10) {
        while (c == ' ' || c == 9 || c == 13) c = getchar();
        if (c == EOF || c == 10) break;
        if (count >= 64) abort();
        room = 16;
        length = 0;
        words[count] = malloc(room);
        while (c != EOF && c != 10 && c != ' ' && c != 9 && c != 13) {
            if (length + 1 >= room) {
                old = words[count];
                words[count] = malloc(2 * room);
                for (n = 0; n < length; n++) words[count][n] = old[n];
                free(old);
                room = 2 * room;
            }
            words[count][length] = c;
            length++;
            c = getchar();
        }
        words[count][length] = 0;
        count++;
    }
    words[count] = NULL;
    return count;
}
unsigned cbi_exact(unsigned size, unsigned each) {
    if (size % each) cbi_other_kind();
    return size / each;
}
