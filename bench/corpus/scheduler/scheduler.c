#include <stdio.h>
#include <stdlib.h>
#define JOBS 16
#define LEVELS 3
#define QUANTUM 4
#define READY 0
#define WAITING 1
#define DONE 2

/* Simulates a scheduler with three queues. Its input is a line of jobs,
 * `name arrival burst device`, each between `;`: a job needs `burst` ticks of
 * the processor, and waits two ticks for its device behind each `device` of
 * them (0 is never). A job that used its whole quantum sinks a level, and one
 * that comes back from its device rises one. */

struct job {
    int name;
    int arrival;
    int burst;
    int device;
    int left;
    int level;
    int state;
    int until;
    int since;
    int ended;
    int turns;
    struct job *behind;
};

struct queue {
    struct job *head;
    struct job *tail;
    int length;
};

struct job *jobs[JOBS];
struct queue queues[LEVELS];
int count;
int clock;
int idle;
int switches;
int next;

int number(void)
{
    int n = 0;
    while (next == ' ')
        next = getchar();
    while (next >= '0' && next <= '9') {
        if (n < 1000)
            n = 10 * n + (next - '0');
        next = getchar();
    }
    return n;
}

void put(struct job *job)
{
    struct queue *queue = &queues[job->level];
    job->behind = NULL;
    job->state = READY;
    if (queue->tail == NULL)
        queue->head = job;
    else
        queue->tail->behind = job;
    queue->tail = job;
    queue->length++;
}

struct job *take(void)
{
    int level;
    struct job *job;
    for (level = 0; level < LEVELS; level++) {
        job = queues[level].head;
        if (job != NULL) {
            queues[level].head = job->behind;
            if (queues[level].head == NULL)
                queues[level].tail = NULL;
            queues[level].length--;
            return job;
        }
    }
    return NULL;
}

int read_job(void)
{
    struct job *job;
    while (next == ' ' || next == ';' || next == '\n')
        next = getchar();
    if (next == EOF || count == JOBS)
        return 0;
    job = malloc(sizeof(struct job));
    if (job == NULL)
        exit(3);
    job->name = next;
    next = getchar();
    job->arrival = number();
    job->burst = number();
    job->device = number();
    job->left = job->burst;
    job->level = 0;
    job->state = WAITING;
    job->until = job->arrival;
    job->since = 0;
    job->ended = -1;
    job->turns = 0;
    job->behind = NULL;
    jobs[count] = job;
    count++;
    while (next != ';' && next != '\n' && next != EOF)
        next = getchar();
    return 1;
}

/* Jobs that arrive, or that come back from their device. */
void wake(void)
{
    int i;
    for (i = 0; i < count; i++) {
        if (jobs[i]->state == WAITING && jobs[i]->until <= clock) {
            if (jobs[i]->left < jobs[i]->burst && jobs[i]->level > 0)
                jobs[i]->level--;
            if (jobs[i]->left == 0) {
                jobs[i]->state = DONE;
                jobs[i]->ended = clock;
            } else {
                put(jobs[i]);
            }
        }
    }
}

int all_done(void)
{
    int i;
    for (i = 0; i < count; i++)
        if (jobs[i]->state != DONE)
            return 0;
    return 1;
}

/* Gives a job the processor until it is done, waits, or used its quantum. */
void run(struct job *job)
{
    int used = 0;
    job->turns++;
    switches++;
    while (used < QUANTUM << job->level) {
        clock++;
        used++;
        job->left--;
        job->since++;
        if (job->left == 0) {
            job->state = DONE;
            job->ended = clock;
            return;
        }
        if (job->device > 0 && job->since == job->device) {
            job->since = 0;
            job->state = WAITING;
            job->until = clock + 2;
            return;
        }
        wake();
        if (job->level > 0 && queues[0].length > 0)
            break;
    }
    if (used == QUANTUM << job->level && job->level < LEVELS - 1)
        job->level++;
    put(job);
}

void report(void)
{
    int i;
    int total = 0;
    int wait;
    int longest = 0;
    struct job *slowest = NULL;
    for (i = 0; i < count; i++) {
        wait = jobs[i]->ended - jobs[i]->arrival - jobs[i]->burst;
        printf("%c ended %d waited %d turns %d level %d\n", jobs[i]->name, jobs[i]->ended, wait, jobs[i]->turns, jobs[i]->level);
        total += wait;
        if (slowest == NULL || wait > longest) {
            longest = wait;
            slowest = jobs[i];
        }
    }
    if (count > 0)
        printf("mean wait %d.%d, slowest %c\n", total / count, total * 10 / count % 10, slowest->name);
    printf("clock %d idle %d switches %d\n", clock, idle, switches);
}

int main(void)
{
    struct job *job;
    int i;
    next = getchar();
    while (read_job())
        ;
    for (i = 0; i < count; i++)
        if (jobs[i]->left == 0) {
            jobs[i]->state = DONE;
            jobs[i]->ended = jobs[i]->arrival;
        }
    while (!all_done()) {
        wake();
        job = take();
        if (job == NULL) {
            clock++;
            idle++;
        } else {
            run(job);
        }
    }
    report();
    for (i = 0; i < count; i++)
        free(jobs[i]);
    return 0;
}
