#include <stdio.h>
#include <stdlib.h>
#include <string.h>

#define FIRST_SIZE 8
#define MAX_WORD 24

/* Counts words by a hash table with open addressing. Words of the input are
 * counted; `-word` takes one off its count and `!word` takes it out, `?word` asks for
 * it, and `*` writes the table. At the end the words stand in order of count. */

typedef struct {
    char *word;
    int count;
    unsigned hash;
    unsigned char used;
    unsigned char dead;
} slot_t;

typedef struct {
    slot_t *slots;
    unsigned size;
    unsigned live;
    unsigned filled;
    unsigned grown;
} table_t;

static table_t table;
static int probes;

static void *must(void *memory)
{
    if (memory == NULL)
        exit(3);
    return memory;
}

static unsigned hash_of(const char *word)
{
    unsigned hash = 5381u;
    while (*word)
        hash = hash * 33u ^ (unsigned char)*word++;
    return hash;
}

static void new_slots(table_t *t, unsigned size)
{
    unsigned i;
    t->slots = must(malloc(size * sizeof(slot_t)));
    t->size = size;
    t->live = 0;
    t->filled = 0;
    for (i = 0; i < size; i++) {
        t->slots[i].word = NULL;
        t->slots[i].count = 0;
        t->slots[i].hash = 0;
        t->slots[i].used = 0;
        t->slots[i].dead = 0;
    }
}

/* The slot of a word, or that in which it would stand. */
static slot_t *look_up(const table_t *t, const char *word, unsigned hash)
{
    unsigned at = hash % t->size;
    slot_t *grave = NULL;
    while (t->slots[at].used) {
        slot_t *slot = &t->slots[at];
        probes++;
        if (slot->dead) {
            if (grave == NULL)
                grave = slot;
        } else if (slot->hash == hash && strcmp(slot->word, word) == 0) {
            return slot;
        }
        at = (at + 1) % t->size;
    }
    return grave != NULL ? grave : &t->slots[at];
}

static void grow(table_t *t)
{
    table_t old = *t;
    unsigned i;
    new_slots(t, old.live * 2 >= old.size ? old.size * 2 : old.size);
    for (i = 0; i < old.size; i++) {
        slot_t *slot = &old.slots[i];
        if (slot->used && !slot->dead) {
            slot_t *fresh = look_up(t, slot->word, slot->hash);
            *fresh = *slot;
            t->live++;
            t->filled++;
        }
    }
    free(old.slots);
    t->grown++;
}

static char *copy_of(const char *word)
{
    char *copy = must(malloc(strlen(word) + 1));
    strcpy(copy, word);
    return copy;
}

static void count_word(table_t *t, const char *word)
{
    unsigned hash = hash_of(word);
    slot_t *slot;
    if ((t->filled + 1) * 4 > t->size * 3)
        grow(t);
    slot = look_up(t, word, hash);
    if (slot->used && !slot->dead) {
        slot->count++;
        return;
    }
    if (!slot->used)
        t->filled++;
    slot->word = copy_of(word);
    slot->hash = hash;
    slot->count = 1;
    slot->used = 1;
    slot->dead = 0;
    t->live++;
}

static void bury(table_t *t, slot_t *slot)
{
    free(slot->word);
    slot->word = NULL;
    slot->dead = 1;
    t->live--;
}

static void take(table_t *t, const char *word, int whole)
{
    slot_t *slot = look_up(t, word, hash_of(word));
    if (!slot->used || slot->dead) {
        printf("%s isn't there\n", word);
        return;
    }
    slot->count--;
    if (whole || slot->count == 0)
        bury(t, slot);
}

static void ask(const table_t *t, const char *word)
{
    const slot_t *slot = look_up(t, word, hash_of(word));
    printf("%s: %d\n", word, slot->used && !slot->dead ? slot->count : 0);
}

static void show(const table_t *t)
{
    unsigned i;
    for (i = 0; i < t->size; i++) {
        const slot_t *slot = &t->slots[i];
        if (!slot->used)
            putchar('.');
        else if (slot->dead)
            putchar('x');
        else
            printf("[%s]", slot->word);
    }
    printf(" %u of %u\n", t->live, t->size);
}

static int by_count(const slot_t *a, const slot_t *b)
{
    if (a->count != b->count)
        return b->count - a->count;
    return strcmp(a->word, b->word);
}

static int by_word(const slot_t *a, const slot_t *b)
{
    return strcmp(a->word, b->word);
}

static void write_sorted(const table_t *t, int (*order)(const slot_t *, const slot_t *))
{
    const slot_t **sorted;
    unsigned n = 0;
    unsigned i, j;
    if (t->live == 0)
        return;
    sorted = must(malloc(t->live * sizeof *sorted));
    for (i = 0; i < t->size; i++) {
        const slot_t *slot = &t->slots[i];
        if (!slot->used || slot->dead)
            continue;
        for (j = n; j > 0 && order(sorted[j - 1], slot) > 0; j--)
            sorted[j] = sorted[j - 1];
        sorted[j] = slot;
        n++;
    }
    for (i = 0; i < n; i++)
        printf("%3d %s\n", sorted[i]->count, sorted[i]->word);
    free(sorted);
}

static int read_word(char *word)
{
    int c = getchar();
    int n = 0;
    while (c == ' ' || c == '\n')
        c = getchar();
    while (c != EOF && c != ' ' && c != '\n') {
        if (n < MAX_WORD - 1)
            word[n++] = (char)c;
        c = getchar();
    }
    word[n] = '\0';
    return n > 0;
}

int main(void)
{
    char word[MAX_WORD];
    unsigned i;
    int alphabetical = 0;
    new_slots(&table, FIRST_SIZE);
    while (read_word(word)) {
        switch (word[0]) {
        case '-':
            take(&table, word + 1, 0);
            break;
        case '!':
            take(&table, word + 1, 1);
            break;
        case '?':
            ask(&table, word + 1);
            break;
        case '*':
            show(&table);
            break;
        case '=':
            alphabetical = !alphabetical;
            break;
        default:
            count_word(&table, word);
        }
    }
    write_sorted(&table, alphabetical ? by_word : by_count);
    printf("%u words, %u filled, size %u, grown %u, %d probes\n", table.live, table.filled, table.size, table.grown, probes);
    for (i = 0; i < table.size; i++)
        free(table.slots[i].word);
    free(table.slots);
    return 0;
}
