#include <stdio.h>
#include <stdlib.h>
#include <string.h>
struct pair { int x, y; };
struct node { int kind; union { int num; char *str; struct pair *pair; struct { char *name; int length; } word; } u; };
static struct node table[4];
struct node whole;
static struct node begun = { 2, { 0 } }, half = { .kind = 3, .u.word = { 0, 0 } }, full = { 4, { 7 } };
static void tell(const char *what, const struct node *n)
{
    printf("%s: %d %d %s %s %d\n", what, n->kind, n->u.num, n->u.str ? "text" : "none", n->u.word.name == NULL ? "none" : "name", n->u.word.length);
}
int main(void)
{
    struct node *made = calloc(3, sizeof *made), local = { 0 }, named = { .kind = 5 }, copy, empty = { 6, { 0 } };
    struct node rows[2] = { { 1, { 5 } } };
    tell("static", &table[2]);
    tell("global", &whole);
    tell("calloc", &made[1]);
    tell("= { 0 }", &local);
    tell("named", &named);
    tell("braces", &empty);
    tell("begun", &begun);
    tell("half", &half);
    tell("row", &rows[1]);
    printf("%d %d\n", full.u.num, rows[0].u.num);
    copy = full;
    copy = table[1];
    tell("copied", &copy);
    memset(made, 0, 3 * sizeof *made);
    made[2].u.word.length = 9;
    printf("%d %s\n", made[2].u.word.length, made[2].u.word.name ? "name" : "none");
    made[2].u.num = 8;
    memset(&made[2], 0, sizeof made[2]);
    tell("memset", &made[2]);
    tell("literal", &(struct node){ 7, { 0 } });
    table[0].u.str = "now";
    puts(table[0].u.str);
    free(made);
    return 0;
}
/* writes
static: 0 0 none none 0
global: 0 0 none none 0
calloc: 0 0 none none 0
= { 0 }: 0 0 none none 0
named: 5 0 none none 0
braces: 6 0 none none 0
begun: 2 0 none none 0
half: 3 0 none none 0
row: 0 0 none none 0
7 5
copied: 0 0 none none 0
9 none
memset: 0 0 none none 0
literal: 7 0 none none 0
now
status 0 */
