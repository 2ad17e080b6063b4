// Text of the dialect, of which only what is named comes in: memory as bytes. A word of `cbi_m` has four of them.
struct cbi_int { int value; };
struct cbi_unsigned { unsigned value; };
struct cbi_memory_state { unsigned stack; unsigned heap; unsigned lists[32]; };
struct cbi_memory_state cbi_memory;
void cbi_begin(unsigned *image, unsigned count) {
    unsigned n = 0u;
    unsigned at = 1024u;
    unsigned end;
    while (n < count) {
        at += image[n];
        end = at + image[n + 1u];
        for (n += 2u; at < end; at++) {
            cbi_m[at] = image[n];
            n++;
        }
    }
}
unsigned cbi_image_word(char *image, unsigned n) {
    image = image + 4u * n;
    return (unsigned)image[0] & 255u | ((unsigned)image[1] & 255u) << 8 | ((unsigned)image[2] & 255u) << 16 | (unsigned)image[3] << 24;
}
void cbi_begin_text(char *image, unsigned count) {
    unsigned n = 0u;
    unsigned at = 1024u;
    unsigned end;
    while (n < count) {
        at += cbi_image_word(image, n);
        end = at + cbi_image_word(image, n + 1u);
        for (n += 2u; at < end; at++) {
            cbi_m[at] = cbi_image_word(image, n);
            n++;
        }
    }
}
void cbi_no_memory(unsigned a) {
    int *nothing = NULL;
    *nothing = a;
}
unsigned cbi_load_word(unsigned a) {
    if (a < 4096u) cbi_no_memory(a);
    if (a & 3u) return (unsigned)cbi_load_half(a) | (unsigned)cbi_load_half(a + 2u) << 16;
    return cbi_m[a >> 2];
}
int cbi_load_byte(unsigned a) {
    if (a < 4096u) cbi_no_memory(a);
    return (int)(cbi_m[a >> 2] >> (8u * (a & 3u)) & 255u);
}
int cbi_load_half(unsigned a) {
    if (a < 4096u) cbi_no_memory(a);
    if ((a & 3u) == 3u) return cbi_load_byte(a) | cbi_load_byte(a + 1u) << 8;
    return (int)(cbi_m[a >> 2] >> (8u * (a & 3u)) & 65535u);
}
int cbi_load_short(unsigned a) {
    return (cbi_load_half(a) ^ 32768) - 32768;
}
struct cbi_long *cbi_load_long(struct cbi_long *to, unsigned a) {
    to->low = cbi_load_word(a);
    to->high = cbi_load_word(a + 4u);
    return to;
}
unsigned cbi_store_word(unsigned a, unsigned value) {
    if (a < 4096u) cbi_no_memory(a);
    if (a & 3u) {
        cbi_store_half(a, (int)(value & 65535u));
        cbi_store_half(a + 2u, (int)(value >> 16));
        return value;
    }
    cbi_m[a >> 2] = value;
    return value;
}
int cbi_store_byte(unsigned a, int value) {
    unsigned shift = 8u * (a & 3u);
    if (a < 4096u) cbi_no_memory(a);
    cbi_m[a >> 2] = (cbi_m[a >> 2] & ~(255u << shift)) | ((unsigned)value & 255u) << shift;
    return value & 255;
}
int cbi_store_half(unsigned a, int value) {
    unsigned shift = 8u * (a & 3u);
    if (a < 4096u) cbi_no_memory(a);
    if (shift == 24u) {
        cbi_store_byte(a, value);
        cbi_store_byte(a + 1u, value >> 8);
        return value & 65535;
    }
    cbi_m[a >> 2] = (cbi_m[a >> 2] & ~(65535u << shift)) | ((unsigned)value & 65535u) << shift;
    return value & 65535;
}
int cbi_store_short(unsigned a, int value) {
    return (cbi_store_half(a, value) ^ 32768) - 32768;
}
struct cbi_long *cbi_store_long(unsigned a, struct cbi_long *value) {
    cbi_store_word(a, value->low);
    cbi_store_word(a + 4u, value->high);
    return value;
}
int cbi_load_bits(unsigned a, int shift, int bits) {
    unsigned value = 0u;
    int done = 0;
    a = a + (unsigned)(shift >> 3);
    shift = shift & 7;
    while (done < bits) {
        value = value | (unsigned)cbi_load_byte(a) >> shift << done;
        done = done + 8 - shift;
        shift = 0;
        a = a + 1u;
    }
    if (bits < 32) value = value & ((1u << bits) - 1u);
    return (int)value;
}
int cbi_load_signed(unsigned a, int shift, int bits) {
    int value = cbi_load_bits(a, shift, bits);
    if (bits < 32) {
        if ((unsigned)value >> (bits - 1) & 1u) return (int)((unsigned)value | ~((1u << bits) - 1u));
    }
    return value;
}
int cbi_store_bits(unsigned a, int shift, int bits, int value) {
    unsigned rest = (unsigned)value;
    unsigned mask;
    int here;
    int left = bits;
    a = a + (unsigned)(shift >> 3);
    shift = shift & 7;
    while (left > 0) {
        here = 8 - shift;
        if (here > left) here = left;
        mask = ((1u << here) - 1u) << shift;
        cbi_store_byte(a, (int)(((unsigned)cbi_load_byte(a) & ~mask) | (rest << shift & mask)));
        rest = rest >> here;
        left = left - here;
        shift = 0;
        a = a + 1u;
    }
    return value;
}
struct cbi_long *cbi_load_long_bits(struct cbi_long *to, unsigned a, int shift, int bits, int is_signed) {
    cbi_long_of(to, (unsigned)cbi_load_bits(a + 4u, shift, bits - 32), (unsigned)cbi_load_bits(a, shift, 32));
    if (bits < 64) return cbi_long_cut(to, to, bits, is_signed);
    return to;
}
struct cbi_long *cbi_store_long_bits(unsigned a, int shift, int bits, struct cbi_long *value) {
    unsigned high = value->high;
    cbi_store_bits(a, shift, 32, (int)value->low);
    cbi_store_bits(a + 4u, shift, bits - 32, (int)high);
    return value;
}
unsigned cbi_next(unsigned a, unsigned size) {
    unsigned at = cbi_load_word(a);
    cbi_store_word(a, at + size);
    return at;
}
unsigned cbi_enter(unsigned size) {
    unsigned at = cbi_memory.stack;
    if (at == 0u) at = cbi_stack_begin();
    cbi_memory.stack = at + size;
    if (at + size > cbi_heap_begin()) cbi_deep();
    return at;
}
void cbi_deep(void) {
    cbi_deep();
}
void cbi_leave(unsigned at) {
    cbi_memory.stack = at;
}
unsigned cbi_alloca(unsigned size) {
    unsigned at = cbi_memory.stack;
    cbi_memory.stack = at + ((size + 15u) & ~15u);
    if (cbi_memory.stack > cbi_heap_begin()) cbi_deep();
    return at;
}
unsigned cbi_copy(unsigned to, unsigned from, unsigned size) {
    unsigned n = 0u;
    if (to < 4096u && size) cbi_no_memory(to);
    if (from < 4096u && size) cbi_no_memory(from);
    if (!((to | from) & 3u)) for (; n + 4u <= size; n += 4u) cbi_m[(to + n) >> 2] = cbi_m[(from + n) >> 2];
    for (; n < size; n++) cbi_store_byte(to + n, cbi_load_byte(from + n));
    return to;
}
unsigned cbi_copy_behind(unsigned to, unsigned from, unsigned size) {
    return cbi_copy(to, from, size) + size;
}
unsigned cbi_move(unsigned to, unsigned from, unsigned size) {
    unsigned n;
    if (to <= from) return cbi_copy(to, from, size);
    for (n = size; n > 0u; n--) cbi_store_byte(to + n - 1u, cbi_load_byte(from + n - 1u));
    return to;
}
void cbi_move_turned(unsigned from, unsigned to, unsigned size) {
    cbi_move(to, from, size);
}
unsigned cbi_zero(unsigned to, unsigned size) {
    return cbi_fill(to, 0, size);
}
unsigned cbi_fill(unsigned to, int value, unsigned size) {
    unsigned n = 0u;
    unsigned word = ((unsigned)value & 255u) * 16843009u;
    if (to < 4096u && size) cbi_no_memory(to);
    if (!(to & 3u)) for (; n + 4u <= size; n += 4u) cbi_m[(to + n) >> 2] = word;
    for (; n < size; n++) cbi_store_byte(to + n, value);
    return to;
}
int cbi_compare(unsigned a, unsigned b, unsigned size) {
    unsigned n;
    int d;
    for (n = 0u; n < size; n++) {
        d = cbi_load_byte(a + n) - cbi_load_byte(b + n);
        if (d) return d;
    }
    return 0;
}
unsigned cbi_length(unsigned a) {
    unsigned n = 0u;
    while (cbi_load_byte(a + n)) n++;
    return n;
}
unsigned cbi_copy_text(unsigned to, unsigned from) {
    return cbi_copy(to, from, cbi_length(from) + 1u);
}
int cbi_compare_text(unsigned a, unsigned b) {
    int c;
    while ((c = cbi_load_byte(a)) != 0 && c == cbi_load_byte(b)) {
        a = a + 1u;
        b = b + 1u;
    }
    return c - cbi_load_byte(b);
}
int cbi_puts(unsigned a) {
    int c;
    while ((c = cbi_load_byte(a)) != 0) {
        putchar(c);
        a = a + 1u;
    }
    putchar(10);
    return 1;
}
unsigned cbi_list(unsigned size) {
    unsigned n = 4u;
    while (1u << n < size) n++;
    return n;
}
unsigned cbi_malloc(unsigned size) {
    unsigned list;
    unsigned at;
    if (size > 3000000u) return 0u;
    list = cbi_list(size + 8u);
    at = cbi_memory.lists[list];
    if (at) {
        cbi_memory.lists[list] = cbi_load_word(at + 8u);
    } else {
        if (cbi_memory.heap == 0u) cbi_memory.heap = cbi_heap_begin();
        at = cbi_memory.heap;
        if (at + (1u << list) > cbi_heap_end()) return 0u;
        cbi_memory.heap = at + (1u << list);
    }
    cbi_store_word(at, size);
    cbi_store_word(at + 4u, 1381126738u);
    return at + 8u;
}
void cbi_free(unsigned a) {
    unsigned list;
    int *nothing;
    if (a == 0u) return;
    if (cbi_load_word(a - 4u) != 1381126738u) {
        nothing = malloc(1);
        free(nothing);
        free(nothing);
    }
    list = cbi_list(cbi_load_word(a - 8u) + 8u);
    cbi_store_word(a - 4u, 0u);
    cbi_store_word(a, cbi_memory.lists[list]);
    cbi_memory.lists[list] = a - 8u;
}
unsigned cbi_calloc(unsigned count, unsigned size) {
    unsigned at = cbi_malloc(count * size);
    if (at) cbi_fill(at, 0, count * size);
    return at;
}
unsigned cbi_realloc(unsigned old, unsigned size) {
    unsigned at;
    unsigned had;
    if (old == 0u) return cbi_malloc(size);
    if (size == 0u) {
        cbi_free(old);
        return 0u;
    }
    at = cbi_malloc(size);
    if (at == 0u) return 0u;
    had = cbi_load_word(old - 8u);
    if (had > size) had = size;
    cbi_copy(at, old, had);
    cbi_free(old);
    return at;
}
void cbi_no_function(unsigned number) {
    int cell = 0;
    char *other = (char *)(void *)&cell;
    if (number == 0u) cbi_no_memory(0u);
    cell = *other;
}
void cbi_sort(unsigned at, unsigned count, unsigned size, unsigned order) {
    unsigned half = count / 2u;
    unsigned room;
    unsigned i = 0u;
    unsigned j = half;
    unsigned n = 0u;
    if (count < 2u) return;
    cbi_sort(at, half, size, order);
    cbi_sort(at + half * size, count - half, size, order);
    room = cbi_malloc(count * size);
    while (i < half && j < count) {
        if (cbi_order(order, at + i * size, at + j * size) <= 0) {
            cbi_copy(room + n * size, at + i * size, size);
            i++;
        } else {
            cbi_copy(room + n * size, at + j * size, size);
            j++;
        }
        n++;
    }
    for (; i < half; i++) {
        cbi_copy(room + n * size, at + i * size, size);
        n++;
    }
    cbi_copy(at, room, n * size);
    cbi_free(room);
}
unsigned cbi_search(unsigned key, unsigned at, unsigned count, unsigned size, unsigned order) {
    unsigned low = 0u;
    unsigned middle;
    int sign;
    while (low < count) {
        middle = (low + count) / 2u;
        sign = cbi_order(order, key, at + middle * size);
        if (sign == 0) return at + middle * size;
        if (sign < 0) count = middle;
        else low = middle + 1u;
    }
    return 0u;
}
int cbi_first_line(unsigned words) {
    int count = 1;
    int c = getchar();
    unsigned at;
    unsigned n;
    at = cbi_malloc(5u);
    cbi_store_word(at, 1735357040u);
    cbi_store_byte(at + 4u, 0);
    cbi_store_word(words, at);
    while (c != EOF && c != 10) {
        while (c == ' ' || c == 9 || c == 13) c = getchar();
        if (c == EOF || c == 10) break;
        if (count >= 64) abort();
        at = cbi_malloc(1000u);
        n = 0u;
        while (c != EOF && c != 10 && c != ' ' && c != 9 && c != 13) {
            if (n >= 999u) abort();
            cbi_store_byte(at + n, c);
            n++;
            c = getchar();
        }
        cbi_store_byte(at + n, 0);
        cbi_store_word(words + 4u * (unsigned)count, at);
        count++;
    }
    return count;
}
