#define _GNU_SOURCE
#include <stdio.h>
#include <stdlib.h>
#include <string.h>
#include <unistd.h>
extern char *optarg;
extern int optind, opterr, optopt;
int main(int argc, char **argv)
{
    int c;
    char *text = NULL, *state, *word;
    FILE *f = fopen("not/there", "r");
    char line[] = "one,two;;three";
    while ((c = getopt(argc, argv, "ab:")) != -1) {
        if (c == 'b') printf("b %s\n", optarg); else printf("%c %d\n", c, optopt);
    }
    printf("%d %s\n", optind, optind < argc ? argv[optind] : "");
    for (word = strtok_r(line, ",;", &state); word; word = strtok_r(NULL, ",;", &state)) printf("[%s]", word);
    printf("%d %d\n", f == NULL, isatty(0));
    c = asprintf(&text, "%05d|%s", 42, "made"); printf("%d %s\n", c, text); free(text);
    while ((c = getchar()) != EOF) putchar(c);
    return feof(stdin) != 0;
}
/* words x -ab 3 -q -b */
/* reads
some text
*/
/* writes
a 0
b 3
? 113
? 98
5 x
[one][two][three]1 0
10 00042|made
some text
status 1 */
