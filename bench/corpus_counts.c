/* Reads a collection: FILE SITES FEWER NARROW MAP COUNT ..
   Tells how many lines of sites it has, and behind the first COUNT runs of each label how many had which counters of each site above 0 (a mask, the
   first counter is 1); and then the label of each run, and where it ends in FILE, in FEWER and in NARROW.
   To FEWER, which has a head already, the same runs are added without the lines of sites that had one mask alone: of such a site a predicate is
   always true or never, where it is observed, so it passes no test, by whatever runs. To NARROW the same, of the sites that MAP has a number for: a
   line for each site, - where it has none. Without names of these files they aren't written. */
#define _GNU_SOURCE
#include <fcntl.h>
#include <stdio.h>
#include <stdlib.h>
#include <string.h>
#include <sys/mman.h>
#include <sys/stat.h>
#include <unistd.h>
struct target {
    FILE *file;
    long written;
};
static const char *begin, *at, *end;
static struct target fewer, narrow;
static long sites;
static char (*names)[24], *tells;
static long (*marks)[8][2];
static void refuse(const char *what)
{
    fprintf(stderr, "corpus_counts: %s at byte %ld\n", what, (long)(at - begin));
    exit(1);
}
static void copy(struct target *target, const char *from, size_t length)
{
    if (target->file)
        target->written += fwrite_unlocked(from, 1, length, target->file);
}
static void open_target(struct target *target, const char *path)
{
    target->file = fopen(path, "ab");
    if (!target->file || fseek(target->file, 0, SEEK_END))
        refuse("nowhere to write");
    target->written = ftell(target->file);
}
static void end_target(struct target *target)
{
    copy(target, "end\n", 4);
    if (target->file && (ferror(target->file) | fclose(target->file)))
        refuse("not written");
}
static int is_next(const char *word)
{
    size_t length = strlen(word);
    return (size_t)(end - at) >= length && memcmp(at, word, length) == 0;
}
static const char *behind_line(void)
{
    const char *found = memchr(at, '\n', end - at);
    if (!found)
        refuse("no end of a line");
    return found + 1;
}
static void read_file(const char *path)
{
    struct stat about;
    int file = open(path, O_RDONLY);
    if (file < 0 || fstat(file, &about) || about.st_size < 5)
        refuse("nothing to read");
    begin = at = mmap(NULL, about.st_size, PROT_READ, MAP_PRIVATE, file, 0);
    end = begin + about.st_size;
    if (begin == MAP_FAILED || memcmp(end - 5, "\nend\n", 5))
        refuse("no end");
    end -= 4;
}
static void read_map(const char *path)
{
    char word[16];
    long site;
    FILE *map = fopen(path, "r");
    names = calloc(sites, sizeof *names);
    for (site = 0; site < sites; site++) {
        if (!map || fscanf(map, "%15s", word) != 1)
            refuse("no map");
        if (strcmp(word, "-"))
            snprintf(names[site], sizeof *names, "site %s", word);
    }
    fclose(map);
}
static void to_first_run(void)
{
    at = begin;
    at = behind_line();
    at = behind_line();
}
/* Goes behind the line of a run: its label, by the first letter. */
static char read_run(void)
{
    const char *next = behind_line(), *label = is_next("run ") ? memmem(at, next - at, " label ", 7) : NULL;
    if (!label)
        refuse("no run");
    at = next;
    return label[7];
}
/* Goes behind the line of a site: its number, and which counters are above 0. */
static long read_site(int *mask, const char **counters)
{
    long site = 0;
    int counter;
    for (at += 5; *at != ' '; at++)
        site = 10 * site + *at - '0';
    if (site >= sites)
        refuse("no such site");
    *counters = at;
    for (*mask = counter = 0; counter < 3; counter++) {
        *mask |= (at[1] != '0') << counter;
        for (at++; *at != ' ' && *at != '\n'; at++)
            ;
    }
    at++;
    return site;
}
static void tell_marks(long count)
{
    long site;
    int mask;
    printf("first %ld\n", count);
    for (site = 0; site < sites; site++)
        for (mask = 1; mask < 8; mask++)
            if (marks[site][mask][0] || marks[site][mask][1])
                printf("%ld %d %ld %ld\n", site, mask, marks[site][mask][0], marks[site][mask][1]);
}
static void count_runs(char **counts)
{
    long runs = 0, lines = 0, site;
    const char *counters;
    int mask;
    for (to_first_run(); at < end;) {
        char label = read_run();
        for (; at < end && is_next("site "); lines++) {
            site = read_site(&mask, &counters);
            if (label != 'n')
                marks[site][mask][label == 'p']++;
        }
        if (*counts && ++runs == atol(*counts)) {
            tell_marks(runs);
            counts++;
        }
    }
    printf("lines %ld\n", lines);
}
/* Which sites had more than one mask. */
static void find_telling(void)
{
    long site;
    int mask, several;
    for (site = 0; site < sites; site++) {
        for (several = 0, mask = 1; mask < 8; mask++)
            several += marks[site][mask][0] || marks[site][mask][1];
        tells[site] = several > 1;
    }
}
static void copy_sites(void)
{
    const char *line, *counters;
    int mask;
    while (at < end && is_next("site ")) {
        long site;
        line = at;
        site = read_site(&mask, &counters);
        if (!tells[site])
            continue;
        copy(&fewer, line, at - line);
        if (names[site][0]) {
            copy(&narrow, names[site], strlen(names[site]));
            copy(&narrow, counters, at - counters);
        }
    }
}
static void copy_runs(void)
{
    const char *line;
    for (to_first_run(); at < end;) {
        char label;
        line = at;
        label = read_run();
        copy(&fewer, line, at - line);
        copy(&narrow, line, at - line);
        if (fewer.file)
            copy_sites();
        while (at < end && is_next("site "))
            at = behind_line();
        printf("%c %ld %ld %ld\n", label, (long)(at - begin), fewer.written, narrow.written);
    }
    end_target(&fewer);
    end_target(&narrow);
}
int main(int count, char **words)
{
    if (count < 6)
        refuse("too few words");
    read_file(words[1]);
    sites = atol(words[2]);
    marks = calloc(sites + 1, sizeof *marks);
    tells = calloc(sites + 1, 1);
    if (words[3][0]) {
        open_target(&fewer, words[3]);
        open_target(&narrow, words[4]);
        read_map(words[5]);
    }
    count_runs(words + 6);
    find_telling();
    copy_runs();
    return 0;
}
