#include <string.h>
#include <stdlib.h>
typedef struct list { struct list *next, *prev; int key; } list_t;
typedef struct { list_t head; unsigned count : 16; unsigned dirty : 1; } queue;
static void init (queue *q) { q->head.next = q->head.prev = &q->head; q->count = 0; q->dirty = 0; }
static void put (queue *q, list_t *l) { l->next = &q->head; l->prev = q->head.prev; q->head.prev->next = l; q->head.prev = l; q->count++; q->dirty = 1; }
static list_t *get (queue *q) { list_t *l = q->head.next; if (l == &q->head) return NULL; l->next->prev = l->prev; l->prev->next = l->next; q->count--; return l; }
int main (void)
{
  queue q; list_t *l; int i, s = 0;
  init (&q);
  for (i = 0; i < 6; i++) { l = malloc (sizeof (*l)); l->key = i * i; put (&q, l); }
  if (q.count != 6 || !q.dirty) abort ();
  while ((l = get (&q)) != NULL) { s = s * 3 + l->key; free (l); }
  if (s != ((((((0) * 3 + 1) * 3 + 4) * 3 + 9) * 3 + 16) * 3 + 25)) abort ();
  if (get (&q) || q.count) abort ();
  return 0;
}
