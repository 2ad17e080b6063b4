#include <stdio.h>
#include <stdlib.h>
#include <string.h>

#define LETTERS 128
#define MAX_TEXT 300
#define MAX_BITS 40
#define MAX_PACKED 600

/* Packs a text by Huffman's codes in their canonical form: codes of one length are
 * numbers that follow each other in the order of their letters. Written are the
 * codes, the packed bytes, and whether they unpack to what they were. */

typedef unsigned char byte;

typedef struct node {
    int letter;
    int weight;
    int order;
    struct node *zero;
    struct node *one;
} node;

typedef struct {
    byte bits[MAX_BITS];
    int length;
} code;

typedef struct {
    byte bytes[MAX_PACKED];
    int bits;
} packed;

static int weight[LETTERS];
static code codes[LETTERS];
static node *roots[LETTERS];
static int count;
static int made;

static node *new_node(int letter, int w, node *zero, node *one)
{
    node *n = malloc(sizeof(node));
    if (n == NULL)
        exit(3);
    n->letter = letter;
    n->weight = w;
    n->order = made++;
    n->zero = zero;
    n->one = one;
    return n;
}

static void let_go(node *n)
{
    if (n == NULL)
        return;
    let_go(n->zero);
    let_go(n->one);
    free(n);
}

static int lighter(const node *a, const node *b)
{
    if (a->weight != b->weight)
        return a->weight < b->weight;
    return a->order < b->order;
}

/* Takes the lightest tree out of the list. */
static node *lightest(void)
{
    int best = 0;
    int i;
    node *found;
    for (i = 1; i < count; i++)
        if (lighter(roots[i], roots[best]))
            best = i;
    found = roots[best];
    count--;
    roots[best] = roots[count];
    return found;
}

static node *build(void)
{
    int i;
    count = 0;
    made = 0;
    for (i = 0; i < LETTERS; i++)
        if (weight[i] > 0)
            roots[count++] = new_node(i, weight[i], NULL, NULL);
    if (count == 0)
        return NULL;
    while (count > 1) {
        node *a = lightest();
        node *b = lightest();
        roots[count++] = new_node(-1, a->weight + b->weight, a, b);
    }
    return roots[0];
}

static void measure(const node *n, int depth)
{
    if (n->zero == NULL) {
        codes[n->letter].length = depth > 0 ? depth : 1;
        return;
    }
    measure(n->zero, depth + 1);
    measure(n->one, depth + 1);
}

/* The next code of the same length. */
static void increment(byte *bits, int length)
{
    int i = length - 1;
    while (i >= 0 && bits[i]) {
        bits[i] = 0;
        i--;
    }
    if (i >= 0)
        bits[i] = 1;
}

static void assign(void)
{
    byte bits[MAX_BITS];
    int length;
    int letter;
    int begun = 0;
    memset(bits, 0, sizeof bits);
    for (length = 1; length < MAX_BITS; length++)
        for (letter = 0; letter < LETTERS; letter++) {
            if (codes[letter].length != length)
                continue;
            if (begun)
                increment(bits, begun);
            begun = length;
            memcpy(codes[letter].bits, bits, length);
        }
}

static void add_bit(packed *p, int bit)
{
    int at = p->bits / 8;
    if (p->bits % 8 == 0)
        p->bytes[at] = 0;
    if (bit)
        p->bytes[at] |= 1 << (7 - p->bits % 8);
    p->bits++;
}

static void pack(const char *text, packed *p)
{
    p->bits = 0;
    for (; *text; text++) {
        const code *c = &codes[(byte)*text];
        int i;
        for (i = 0; i < c->length; i++)
            add_bit(p, c->bits[i]);
    }
}

static int matches(const packed *p, int at, const code *c)
{
    int i;
    if (at + c->length > p->bits)
        return 0;
    for (i = 0; i < c->length; i++) {
        int place = at + i;
        if (((p->bytes[place / 8] >> (7 - place % 8)) & 1) != c->bits[i])
            return 0;
    }
    return 1;
}

static int unpack(const packed *p, char *text)
{
    int at = 0;
    int n = 0;
    while (at < p->bits && n < MAX_TEXT) {
        int letter = 0;
        while (letter < LETTERS && !(codes[letter].length > 0 && matches(p, at, &codes[letter])))
            letter++;
        if (letter == LETTERS)
            break;
        text[n++] = (char)letter;
        at += codes[letter].length;
    }
    text[n] = '\0';
    return at == p->bits;
}

static void show_codes(void)
{
    int i, j;
    for (i = 0; i < LETTERS; i++) {
        if (codes[i].length == 0)
            continue;
        printf("%c %3d ", i, weight[i]);
        for (j = 0; j < codes[i].length; j++)
            putchar('0' + codes[i].bits[j]);
        putchar('\n');
    }
}

static void show_packed(const packed *p)
{
    int i;
    for (i = 0; i < (p->bits + 7) / 8; i++)
        printf("%02x", p->bytes[i]);
    printf(" %d bits\n", p->bits);
}

static void do_text(const char *text)
{
    char back[MAX_TEXT + 1];
    packed p;
    node *root;
    const char *at;
    int whole;
    memset(weight, 0, sizeof weight);
    memset(codes, 0, sizeof codes);
    for (at = text; *at; at++)
        weight[(byte)*at]++;
    root = build();
    if (root == NULL) {
        puts("empty");
        return;
    }
    measure(root, 0);
    let_go(root);
    assign();
    show_codes();
    pack(text, &p);
    show_packed(&p);
    whole = unpack(&p, back);
    printf("%s\n", whole && strcmp(back, text) == 0 ? "whole" : "DAMAGED");
}

int main(void)
{
    char text[MAX_TEXT];
    while (fgets(text, sizeof text, stdin) != NULL) {
        char *end = strchr(text, '\n');
        if (end)
            *end = '\0';
        do_text(text);
    }
    return 0;
}
