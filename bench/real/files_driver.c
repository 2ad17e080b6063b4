/* Runs a program, built with -Dmain=program_main, on files that stand in the input: a line with its arguments; for each file a line `NAME COUNT` and that many
 * lines; a line that is empty; and behind it what the program reads itself. BEFORE is what is done first. */
#undef main
#include <stdio.h>
#include <stdlib.h>
#include <string.h>
#include <unistd.h>
#include "system/system.c"

#ifndef BEFORE
#define BEFORE
#endif
#define MOST 8

static char line[400];
static char *words[20] = { "program" };
static char *files[MOST + 1];

int program_main(int, char **);

static int read_line(void) {
    if (!fgets(line, sizeof line, stdin))
        return 0;
    line[strcspn(line, "\n")] = 0;
    return line[0] != 0;
}

static void read_file(int number) {
    FILE *file;
    char *space = strchr(line, ' ');
    int count = space ? atoi(space) : 0;
    if (!space)
        exit(98);
    *space = 0;
    files[number] = strdup(line);
    file = fopen(line, "w");
    if (!file)
        exit(98);
    for (; count > 0; count--) {
        read_line();
        fprintf(file, "%s\n", line);
    }
    fclose(file);
}

int main(void) {
    int count = 1, number;
    char *word;
#ifndef __CBI__
    setsid();   /* A program that asks at a terminal finds none, and asks at stdin. */
#endif
    BEFORE
    if (!read_line())
        return 98;
    for (word = strtok(line, " "); word && count < 19; word = strtok(NULL, " "))
        words[count++] = strdup(word);
    for (number = 0; number < MOST && read_line(); number++)
        read_file(number);
    return program_main(count, words);
}
