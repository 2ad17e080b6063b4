// Text of the dialect, of which only what is named comes in: what differs from raw_bytes.c where bounds are looked at.
// A bit of `cbi_live` says of each byte of `cbi_m` whether it is one of a live object. Freed blocks are kept back in a queue.
struct cbi_memory_state { unsigned stack; unsigned heap; unsigned lists[32]; unsigned first; unsigned last; unsigned held; };
void cbi_begin_image(unsigned *live, unsigned count) {
    unsigned n;
    for (n = 0u; n < count; n++) cbi_live[n + 128u] = live[n];
}
void cbi_begin_objects(unsigned *objects, unsigned count) {
    unsigned n;
    for (n = 0u; n < count; n += 2u) cbi_begin_life(objects[n], objects[n + 1u]);
}
void cbi_begin_life(unsigned a, unsigned size) {
    unsigned n = a >> 5;
    unsigned mask = 4294967295u << (a & 31u);
    unsigned left = (a & 31u) + size;
    if (size == 0u) return;
    for (; left > 32u; left -= 32u) {
        cbi_live[n] = cbi_live[n] | mask;
        mask = 4294967295u;
        n++;
    }
    cbi_live[n] = cbi_live[n] | (mask & 4294967295u >> (32u - left));
}
void cbi_end_life(unsigned a, unsigned size) {
    unsigned n = a >> 5;
    unsigned mask = 4294967295u << (a & 31u);
    unsigned left = (a & 31u) + size;
    if (size == 0u) return;
    for (; left > 32u; left -= 32u) {
        cbi_live[n] = cbi_live[n] & ~mask;
        mask = 4294967295u;
        n++;
    }
    cbi_live[n] = cbi_live[n] & ~(mask & 4294967295u >> (32u - left));
}
void cbi_look(unsigned a, unsigned size) {
    unsigned n = a >> 5;
    unsigned mask = 4294967295u << (a & 31u);
    unsigned left = (a & 31u) + size;
    if (size == 0u) return;
    for (; left > 32u; left -= 32u) {
        if (~cbi_live[n] & mask) cbi_look_closer(a, size);
        mask = 4294967295u;
        n++;
    }
    if (~cbi_live[n] & mask & 4294967295u >> (32u - left)) cbi_look_closer(a, size);
}
void cbi_look_closer(unsigned a, unsigned size) {
    unsigned n;
    for (n = 0u; n < size; n++) cbi_load_byte(a + n);
}
void cbi_no_object(unsigned a) {
    int list = 0;
    if (a < 4096u) cbi_no_memory(a);
    if (a >= cbi_memory.stack && cbi_memory.stack && a < cbi_heap_begin()) cbi_dead_object();
    if (cbi_is_freed(a, cbi_memory.first)) cbi_dead_object();
    for (; list < 32; list++) {
        if (cbi_is_freed(a, cbi_memory.lists[list])) cbi_dead_object();
    }
    cbi_outside();
}
int cbi_is_freed(unsigned a, unsigned block) {
    while (block) {
        if (a - block < 1u << cbi_m[block >> 2]) return 1;
        block = cbi_m[(block + 8u) >> 2];
    }
    return 0;
}
void cbi_dead_object(void) {
    int *cell = malloc(1);
    free(cell);
    *cell = 0;
}
void cbi_outside(void) {
    int cells[1];
    int n = 1;
    cells[n] = 0;
}
unsigned cbi_load_word(unsigned a) {
    if (a & 3u) return (unsigned)cbi_load_half(a) | (unsigned)cbi_load_half(a + 2u) << 16;
    if (~(cbi_live[a >> 5] >> (a & 31u)) & 15u) cbi_look_closer(a, 4u);
    return cbi_m[a >> 2];
}
int cbi_load_byte(unsigned a) {
    if (!(cbi_live[a >> 5] >> (a & 31u) & 1u)) cbi_no_object(a);
    return (int)(cbi_m[a >> 2] >> (8u * (a & 3u)) & 255u);
}
int cbi_load_half(unsigned a) {
    if ((a & 3u) == 3u) return cbi_load_byte(a) | cbi_load_byte(a + 1u) << 8;
    if (~(cbi_live[a >> 5] >> (a & 31u)) & 3u) cbi_look_closer(a, 2u);
    return (int)(cbi_m[a >> 2] >> (8u * (a & 3u)) & 65535u);
}
unsigned cbi_store_word(unsigned a, unsigned value) {
    if (a & 3u) {
        cbi_store_half(a, (int)(value & 65535u));
        cbi_store_half(a + 2u, (int)(value >> 16));
        return value;
    }
    if (~(cbi_live[a >> 5] >> (a & 31u)) & 15u) cbi_look_closer(a, 4u);
    cbi_m[a >> 2] = value;
    return value;
}
int cbi_store_byte(unsigned a, int value) {
    unsigned shift = 8u * (a & 3u);
    if (!(cbi_live[a >> 5] >> (a & 31u) & 1u)) cbi_no_object(a);
    cbi_m[a >> 2] = (cbi_m[a >> 2] & ~(255u << shift)) | ((unsigned)value & 255u) << shift;
    return value & 255;
}
int cbi_store_half(unsigned a, int value) {
    unsigned shift = 8u * (a & 3u);
    if (shift == 24u) {
        cbi_store_byte(a, value);
        cbi_store_byte(a + 1u, value >> 8);
        return value & 65535;
    }
    if (~(cbi_live[a >> 5] >> (a & 31u)) & 3u) cbi_look_closer(a, 2u);
    cbi_m[a >> 2] = (cbi_m[a >> 2] & ~(65535u << shift)) | ((unsigned)value & 65535u) << shift;
    return value & 65535;
}
void cbi_leave(unsigned at) {
    unsigned n = at >> 5;
    unsigned end = cbi_memory.stack >> 5;
    cbi_memory.stack = at;
    cbi_live[n] = 0u;
    n++;
    for (; n < end; n++) cbi_live[n] = 0u;
}
unsigned cbi_alloca(unsigned size) {
    unsigned at = cbi_memory.stack;
    cbi_memory.stack = at + ((size + 47u) & ~31u);
    if (cbi_memory.stack > cbi_heap_begin()) cbi_deep();
    cbi_begin_life(at, size);
    return at;
}
unsigned cbi_copy(unsigned to, unsigned from, unsigned size) {
    unsigned n = 0u;
    cbi_look(from, size);
    cbi_look(to, size);
    if (!((to | from) & 3u)) for (; n + 4u <= size; n += 4u) cbi_m[(to + n) >> 2] = cbi_m[(from + n) >> 2];
    for (; n < size; n++) cbi_store_byte(to + n, cbi_load_byte(from + n));
    return to;
}
unsigned cbi_fill(unsigned to, int value, unsigned size) {
    unsigned n = 0u;
    unsigned word = ((unsigned)value & 255u) * 16843009u;
    cbi_look(to, size);
    if (!(to & 3u)) for (; n + 4u <= size; n += 4u) cbi_m[(to + n) >> 2] = word;
    for (; n < size; n++) cbi_store_byte(to + n, value);
    return to;
}
unsigned cbi_malloc(unsigned size) {
    unsigned list;
    unsigned at;
    if (size > 3000000u) return 0u;
    list = cbi_list(size + 16u);
    if (cbi_memory.heap == 0u) cbi_memory.heap = cbi_heap_begin();
    while (cbi_memory.first && !cbi_memory.lists[list] && cbi_memory.heap + (1u << list) > cbi_heap_end()) cbi_release();
    at = cbi_memory.lists[list];
    if (at) {
        cbi_memory.lists[list] = cbi_m[(at + 8u) >> 2];
    } else {
        at = cbi_memory.heap;
        if (at + (1u << list) > cbi_heap_end()) return 0u;
        cbi_memory.heap = at + (1u << list);
    }
    cbi_m[at >> 2] = size;
    cbi_m[(at + 4u) >> 2] = 1381126738u;
    cbi_begin_life(at + 8u, size);
    return at + 8u;
}
void cbi_free(unsigned a) {
    unsigned block = a - 8u;
    unsigned list;
    if (a == 0u) return;
    if (a < cbi_heap_begin() || a > cbi_memory.heap || a & 7u) cbi_bad_free();
    if (cbi_m[(a - 4u) >> 2] != 1381126738u) cbi_bad_free();
    list = cbi_list(cbi_m[block >> 2] + 16u);
    cbi_end_life(a, cbi_m[block >> 2]);
    cbi_m[block >> 2] = list;
    cbi_m[(block + 4u) >> 2] = 0u;
    cbi_m[(block + 8u) >> 2] = 0u;
    if (cbi_memory.last) cbi_m[(cbi_memory.last + 8u) >> 2] = block;
    else cbi_memory.first = block;
    cbi_memory.last = block;
    cbi_memory.held += 1u << list;
    while (cbi_memory.held > 524288u) cbi_release();
}
void cbi_bad_free(void) {
    int *nothing = malloc(1);
    free(nothing);
    free(nothing);
}
void cbi_release(void) {
    unsigned block = cbi_memory.first;
    unsigned list = cbi_m[block >> 2];
    cbi_memory.first = cbi_m[(block + 8u) >> 2];
    if (cbi_memory.first == 0u) cbi_memory.last = 0u;
    cbi_memory.held -= 1u << list;
    cbi_m[(block + 8u) >> 2] = cbi_memory.lists[list];
    cbi_memory.lists[list] = block;
}
unsigned cbi_realloc(unsigned old, unsigned size) {
    unsigned at;
    unsigned had;
    if (old == 0u) return cbi_malloc(size);
    if (size == 0u) {
        cbi_free(old);
        return 0u;
    }
    if (old < cbi_heap_begin() || old > cbi_memory.heap || old & 7u) cbi_bad_free();
    if (cbi_m[(old - 4u) >> 2] != 1381126738u) cbi_bad_free();
    at = cbi_malloc(size);
    if (at == 0u) return 0u;
    had = cbi_m[(old - 8u) >> 2];
    if (had > size) had = size;
    cbi_copy(at, old, had);
    cbi_free(old);
    return at;
}
