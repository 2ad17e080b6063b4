#include <stdio.h>
#include <stdlib.h>
#include <string.h>

#define CAPACITY 24
#define MAX_ID 40

/* A queue of patients by urgency, in a heap. Commands, each of a letter and numbers:
 *
 *   a ID U    patient ID arrives with urgency U (1 to 9)     n        the most urgent one is called
 *   c ID U    the urgency of ID is changed                   l ID     ID leaves
 *   t N       N minutes pass: who waited 30 rises by one     p        the queue is printed
 *   o         the order is turned: urgency first, or those that came first
 */

typedef struct {
    int id;
    int urgency;
    int arrived;
    int since;
} patient;

typedef int (*order)(const patient *, const patient *);

typedef struct {
    patient items[CAPACITY];
    int size;
    order before;
} heap;

static heap queue;
static int place_of[MAX_ID];
static int now;
static int called;
static int waited;

static int more_urgent(const patient *a, const patient *b)
{
    if (a->urgency != b->urgency)
        return a->urgency > b->urgency;
    if (a->arrived != b->arrived)
        return a->arrived < b->arrived;
    return a->id < b->id;
}

static int came_first(const patient *a, const patient *b)
{
    return a->arrived != b->arrived ? a->arrived < b->arrived : a->id < b->id;
}

static void put_at(heap *h, int place, patient p)
{
    h->items[place] = p;
    place_of[p.id] = place;
}

static void rise(heap *h, int place)
{
    patient p = h->items[place];
    while (place > 0) {
        int parent = (place - 1) / 2;
        if (!h->before(&p, &h->items[parent]))
            break;
        put_at(h, place, h->items[parent]);
        place = parent;
    }
    put_at(h, place, p);
}

static void sink(heap *h, int place)
{
    patient p = h->items[place];
    for (;;) {
        int child = 2 * place + 1;
        if (child >= h->size)
            break;
        if (child + 1 < h->size && h->before(&h->items[child + 1], &h->items[child]))
            child++;
        if (!h->before(&h->items[child], &p))
            break;
        put_at(h, place, h->items[child]);
        place = child;
    }
    put_at(h, place, p);
}

static void settle(heap *h, int place)
{
    rise(h, place);
    sink(h, place_of[h->items[place].id]);
}

static void rebuild(heap *h)
{
    int i;
    for (i = h->size / 2 - 1; i >= 0; i--)
        sink(h, i);
}

static patient take(heap *h, int place)
{
    patient gone = h->items[place];
    h->size--;
    if (place != h->size) {
        put_at(h, place, h->items[h->size]);
        settle(h, place);
    }
    place_of[gone.id] = -1;
    return gone;
}

static int known(int id)
{
    return id >= 0 && id < MAX_ID && place_of[id] >= 0;
}

static void arrive(int id, int urgency)
{
    patient p;
    if (id < 0 || id >= MAX_ID || known(id) || urgency < 1 || urgency > 9) {
        printf("bad patient %d\n", id);
        return;
    }
    if (queue.size == CAPACITY) {
        printf("no room for %d\n", id);
        return;
    }
    p.id = id;
    p.urgency = urgency;
    p.arrived = now;
    p.since = now;
    put_at(&queue, queue.size, p);
    queue.size++;
    rise(&queue, queue.size - 1);
}

static void change(int id, int urgency)
{
    patient *p;
    if (!known(id) || urgency < 1 || urgency > 9) {
        printf("bad change of %d\n", id);
        return;
    }
    p = &queue.items[place_of[id]];
    p->urgency = urgency;
    p->since = now;
    settle(&queue, place_of[id]);
}

static void call_next(void)
{
    patient p;
    if (queue.size == 0) {
        puts("nobody waits");
        return;
    }
    p = take(&queue, 0);
    called++;
    waited += now - p.arrived;
    printf("call %d (urgency %d, %d minutes)\n", p.id, p.urgency, now - p.arrived);
}

static void leave(int id)
{
    if (!known(id)) {
        printf("%d isn't here\n", id);
        return;
    }
    take(&queue, place_of[id]);
}

static void pass(int minutes)
{
    int i;
    int risen = 0;
    now += minutes;
    for (i = 0; i < queue.size; i++) {
        patient *p = &queue.items[i];
        if (now - p->since >= 30 && p->urgency < 9) {
            p->urgency++;
            p->since = now;
            risen++;
        }
    }
    if (risen)
        rebuild(&queue);
}

static void print(void)
{
    int i;
    for (i = 0; i < queue.size; i++)
        printf("%d:%d ", queue.items[i].id, queue.items[i].urgency);
    printf("(%d)\n", queue.size);
}

static int number(const char **at)
{
    int n = 0;
    while (**at == ' ')
        (*at)++;
    while (**at >= '0' && **at <= '9') {
        if (n < 1000)
            n = 10 * n + (**at - '0');
        (*at)++;
    }
    return n;
}

int main(void)
{
    char text[40];
    int i;
    queue.size = 0;
    queue.before = more_urgent;
    for (i = 0; i < MAX_ID; i++)
        place_of[i] = -1;
    while (fgets(text, sizeof text, stdin) != NULL) {
        const char *at = text + 1;
        int first = number(&at);
        switch (text[0]) {
        case 'a':
            arrive(first, number(&at));
            break;
        case 'c':
            change(first, number(&at));
            break;
        case 'l':
            leave(first);
            break;
        case 'n':
            call_next();
            break;
        case 't':
            pass(first);
            break;
        case 'p':
            print();
            break;
        case 'o':
            queue.before = queue.before == more_urgent ? came_first : more_urgent;
            rebuild(&queue);
            break;
        default:
            puts("unknown");
        }
    }
    print();
    printf("%d called, waited %d\n", called, waited);
    return 0;
}
