/* Makes of collections of rate 1 what runs at rate D would have collected: each counted visit is kept by the chance 1/D, each time anew.
 *
 *     thinned D SEED PREFIX N,N,.. COLLECTION ..
 *
 * The runs of the collections are taken in their order, again and again, and numbered from 1. For each N the first N of them are written to
 * PREFIX.N, as long as these have no more lines than a collection holds; where there are more, PREFIX.full has as many as it holds. Of each
 * file its runs and their lines are printed. */
#include <math.h>
#include <stdint.h>
#include <stdio.h>
#include <stdlib.h>
#include <string.h>

enum { MOST_LINES = 16777216, MOST_SITES = 65536, MOST_FILES = 100, MOST_ROUNDS = 100000 };

typedef struct { uint32_t site, counts[3]; } Cell;
typedef struct { char *head; Cell *cells; long cell_count; } Run;
typedef struct { long runs; FILE *file; char name[4096]; } Out;

static Run *runs;
static long run_count;
static char *program;
static uint64_t state[2];
static double mean;

static void fail(const char *why)
{
    fprintf(stderr, "thinned: %s\n", why);
    exit(2);
}

static uint64_t random_word(void)
{
    uint64_t a = state[0], b = state[1];
    state[0] = b;
    a ^= a << 23;
    state[1] = a ^ b ^ (a >> 17) ^ (b >> 26);
    return state[1] + b;
}

/* How many visits are left out before the next that is kept: a geometric number. */
static uint64_t gap(void)
{
    if (mean <= 1)
        return 0;
    return (uint64_t) floor(log(((random_word() >> 11) + 1) / 9007199254740993.0) / log1p(-1 / mean));
}

static void read_site(Run *run, char *line)
{
    Cell *cell = &run->cells[run->cell_count++];
    int place;
    char *at = line + 5;
    cell->site = strtoul(at, &at, 10);
    for (place = 0; place < 3; place++) {
        unsigned long long count = strtoull(at, &at, 10);
        if (count > UINT32_MAX)
            fail("a counter is too large");
        cell->counts[place] = count;
    }
}

static void read_collection(const char *path)
{
    char *line = NULL;
    size_t room = 0;
    FILE *file = fopen(path, "r");
    if (!file || getline(&line, &room, file) < 0 || strcmp(line, "cbi-collection 2\n") || getline(&line, &room, file) < 0)
        fail(path);
    if (!program)
        program = strdup(line);
    if (strcmp(program, line))
        fail("collections of several programs");
    while (getline(&line, &room, file) > 0 && strcmp(line, "end\n")) {
        if (strncmp(line, "run ", 4)) {
            read_site(&runs[run_count - 1], line);
            continue;
        }
        if (run_count)
            runs[run_count - 1].cells = realloc(runs[run_count - 1].cells, sizeof(Cell) * (runs[run_count - 1].cell_count + 1));
        runs = realloc(runs, sizeof(Run) * (run_count + 1));
        runs[run_count++] = (Run) {strdup(strchr(line + 4, ' ')), malloc(sizeof(Cell) * MOST_SITES), 0};
    }
    free(line);
    fclose(file);
}

/* Keeps visits of a run; how many sites have one. */
static long thin(const Run *run, Cell *kept)
{
    long place, found = 0;
    uint64_t left = gap();
    for (place = 0; place < run->cell_count; place++) {
        const Cell *cell = &run->cells[place];
        Cell *one = &kept[found];
        int truth;
        *one = (Cell) {cell->site, {0, 0, 0}};
        for (truth = 0; truth < 3; truth++) {
            uint64_t visits = cell->counts[truth];
            for (; left < visits; left = gap()) {
                one->counts[truth]++;
                visits -= left + 1;
            }
            left -= visits;
        }
        found += one->counts[0] || one->counts[1] || one->counts[2];
    }
    return found;
}

static void begin(Out *out, const char *prefix, const char *name)
{
    snprintf(out->name, sizeof out->name, "%s.%s", prefix, name);
    out->runs = strcmp(name, "full") ? atol(name) : -1;
    out->file = fopen(out->name, "w");
    if (!out->file)
        fail(out->name);
    fprintf(out->file, "cbi-collection 2\n%s", program);
}

static void end(Out *out, long made, long lines)
{
    fprintf(out->file, "end\n");
    fclose(out->file);
    out->file = NULL;
    printf("%s %ld %ld\n", out->name, made, lines);
}

static void write_run(FILE *file, long number, const Run *run, const Cell *kept, long found)
{
    long place;
    fprintf(file, "run %ld%s", number, run->head);
    for (place = 0; place < found; place++)
        fprintf(file, "site %u %u %u %u\n", kept[place].site, kept[place].counts[0], kept[place].counts[1], kept[place].counts[2]);
}

int main(int argc, char **argv)
{
    static Cell kept[MOST_SITES];
    Out outs[MOST_FILES];
    int count = 0, place;
    long number, lines = 0, wanted = 0;
    char *name;
    if (argc < 6)
        fail("D SEED PREFIX N,N,.. COLLECTION ..");
    mean = atof(argv[1]);
    state[0] = strtoull(argv[2], NULL, 10) * 0x9E3779B97F4A7C15ull + 1;
    state[1] = 0xD1B54A32D192ED03ull;
    for (place = 5; place < argc; place++)
        read_collection(argv[place]);
    begin(&outs[count++], argv[3], "full");
    for (name = strtok(argv[4], ","); name && count < MOST_FILES; name = strtok(NULL, ",")) {
        begin(&outs[count], argv[3], name);
        wanted = outs[count].runs > wanted ? outs[count].runs : wanted;
        count++;
    }
    for (number = 1; run_count && number <= wanted; number++) {
        const Run *run = &runs[(number - 1) % run_count];
        long found = thin(run, kept);
        if (lines + found > MOST_LINES)
            break;
        lines += found;
        for (place = 0; place < count; place++) {
            if (!outs[place].file)
                continue;
            write_run(outs[place].file, number, run, kept, found);
            if (outs[place].runs == number)
                end(&outs[place], number, lines);
        }
    }
    end(&outs[0], number - 1, lines);
    for (place = 1; place < count; place++)
        if (outs[place].file) {
            fclose(outs[place].file);
            remove(outs[place].name);
        }
    return 0;
}
