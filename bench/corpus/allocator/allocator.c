#include <stdio.h>
#include <stdlib.h>
#define CELLS 64
#define HANDLES 10
#define FREE 0
#define USED 1

/* An allocator over 64 cells, first fit. Each block begins with a header of
 * two cells: its length, header and all, and whether it is used. Commands:
 *
 *   aHN    handle H becomes a block of N cells, which are filled by its letter
 *   fH     the block of H is given back      rHN    it gets another length
 *   cHG    the cells of H are copied to G    m      the map is written
 *   x      blocks are moved together, to the left
 */

int cell[CELLS];
int handle[HANDLES];
int next;
int moves;

int size_of(int block)
{
    return cell[block];
}

int is_free(int block)
{
    return cell[block + 1] == FREE;
}

int behind(int block)
{
    return block + cell[block];
}

void head(int block, int size, int used)
{
    cell[block] = size;
    cell[block + 1] = used;
}

void clear(void)
{
    int i;
    for (i = 0; i < HANDLES; i++)
        handle[i] = -1;
    for (i = 0; i < CELLS; i++)
        cell[i] = 0;
    head(0, CELLS, FREE);
}

/* Cuts a block to a size where what is left over can be a block. */
void split(int block, int size)
{
    int rest = size_of(block) - size;
    if (rest < 3)
        return;
    cell[block] = size;
    head(block + size, rest, FREE);
}

int find(int wanted)
{
    int block;
    for (block = 0; block < CELLS; block = behind(block))
        if (is_free(block) && size_of(block) >= wanted)
            return block;
    return -1;
}

int take(int length)
{
    int block = find(length + 2);
    if (block < 0)
        return -1;
    split(block, length + 2);
    cell[block + 1] = USED;
    return block;
}

/* Joins each free block with the free ones behind it. */
void join(void)
{
    int block = 0;
    while (block < CELLS) {
        if (is_free(block) && behind(block) < CELLS && is_free(behind(block)))
            cell[block] += size_of(behind(block));
        else
            block = behind(block);
    }
}

void give_back(int block)
{
    cell[block + 1] = FREE;
    join();
}

int length_of(int block)
{
    return size_of(block) - 2;
}

void fill(int block, int from, int letter)
{
    int i;
    for (i = from; i < length_of(block); i++)
        cell[block + 2 + i] = letter;
}

void copy(int to, int from, int length)
{
    int i;
    for (i = 0; i < length; i++)
        cell[to + 2 + i] = cell[from + 2 + i];
}

/* A block of another length with the same beginning: in its place where it
 * is to be shorter, or where a free block behind it is long enough. */
int resized(int block, int length, int letter)
{
    int old = length_of(block);
    int after = behind(block);
    int fresh;
    if (length > old && after < CELLS && is_free(after) && size_of(block) + size_of(after) >= length + 2)
        cell[block] += size_of(after);
    if (length_of(block) >= length) {
        split(block, length + 2);
        join();
        fill(block, old, letter);
        return block;
    }
    fresh = take(length);
    if (fresh < 0)
        return -1;
    copy(fresh, block, old);
    fill(fresh, old, letter);
    give_back(block);
    return fresh;
}

int owner(int block)
{
    int i;
    for (i = 0; i < HANDLES; i++)
        if (handle[i] == block)
            return i;
    return -1;
}

void compact(void)
{
    int block = 0;
    int to = 0;
    int last = 0;
    int size;
    int who;
    int i;
    while (block < CELLS) {
        size = size_of(block);
        if (!is_free(block)) {
            who = owner(block);
            last = to;
            for (i = 0; i < size; i++)
                cell[to + i] = cell[block + i];
            handle[who] = to;
            if (to != block)
                moves++;
            to += size;
        }
        block += size;
    }
    if (CELLS - to >= 3)
        head(to, CELLS - to, FREE);
    else if (to < CELLS)
        cell[last] += CELLS - to;
}

void map(void)
{
    int block;
    int i;
    for (block = 0; block < CELLS; block = behind(block)) {
        if (is_free(block)) {
            printf(".%d", length_of(block));
        } else {
            putchar('[');
            for (i = 0; i < length_of(block); i++)
                putchar(cell[block + 2 + i]);
            putchar(']');
        }
    }
    putchar('\n');
}

int digit(void)
{
    int n = next >= '0' && next <= '9' ? next - '0' : -1;
    if (n >= 0)
        next = getchar();
    return n;
}

int amount(void)
{
    int n = 0;
    int d = digit();
    while (d >= 0) {
        if (n < 100)
            n = 10 * n + d;
        d = digit();
    }
    return n;
}

void refuse(char *why)
{
    printf("%s\n", why);
    while (next != ';' && next != '\n' && next != EOF)
        next = getchar();
}

void allocate(int who, int length)
{
    int block;
    if (handle[who] >= 0 || length == 0) {
        refuse("in use");
        return;
    }
    block = take(length);
    if (block < 0) {
        refuse("no room");
        return;
    }
    handle[who] = block;
    fill(block, 0, 'a' + who);
}

void copy_handles(int from, int to)
{
    int length;
    if (to < 0 || handle[to] < 0 || to == from) {
        refuse("no target");
        return;
    }
    length = length_of(handle[from]);
    if (length > length_of(handle[to]))
        length = length_of(handle[to]);
    copy(handle[to], handle[from], length);
}

void command(int letter)
{
    int who;
    int block;
    if (letter == 'm') {
        map();
        return;
    }
    if (letter == 'x') {
        compact();
        return;
    }
    who = digit();
    if (who < 0) {
        refuse("no handle");
        return;
    }
    if (letter == 'a') {
        allocate(who, amount());
        return;
    }
    if (handle[who] < 0) {
        refuse("not in use");
        return;
    }
    if (letter == 'f') {
        give_back(handle[who]);
        handle[who] = -1;
    } else if (letter == 'c') {
        copy_handles(who, digit());
    } else if (letter == 'r') {
        block = resized(handle[who], amount(), 'A' + who);
        if (block < 0)
            refuse("no room");
        else
            handle[who] = block;
    } else {
        refuse("no command");
    }
}

int main(void)
{
    int letter;
    clear();
    next = getchar();
    while (next != EOF) {
        if (next == ';' || next == '\n' || next == ' ') {
            next = getchar();
        } else {
            letter = next;
            next = getchar();
            command(letter);
        }
    }
    map();
    printf("%d moves\n", moves);
    return 0;
}
