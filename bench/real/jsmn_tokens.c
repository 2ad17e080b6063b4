/* Reads a text, and prints the tokens that jsmn finds in it. */
#include <stdio.h>
#include "jsmn.h"

static char text[65536];
static jsmntok_t tokens[256];

int main(void)
{
    jsmn_parser parser;
    size_t size = fread(text, 1, sizeof text, stdin);
    int count, place;
    jsmn_init(&parser);
    count = jsmn_parse(&parser, text, size, tokens, sizeof tokens / sizeof *tokens);
    printf("%d\n", count);
    for (place = 0; place < count; place++)
        printf("%d %d-%d %d %d\n", tokens[place].type, tokens[place].start, tokens[place].end, tokens[place].size, tokens[place].parent);
    return 0;
}
