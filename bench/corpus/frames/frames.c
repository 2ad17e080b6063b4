#include <stdio.h>
#include <stdlib.h>
#define WINDOW 4
#define LONGEST 24
#define CHANNELS 4
#define NUMBERS 8

/* Reads frames of a serial line, written as hexadecimal digits. A frame is
 *
 *   7e KIND CHANNEL NUMBER LENGTH byte.. CHECK
 *
 * where CHECK is the sum of all bytes behind 7e, modulo 256. Behind 7d a byte
 * stands for itself exclusive-or 32, so that 7e begins frames alone. Kinds are
 * 1 (open), 2 (data), 3 (close) and 4 (a query). Data of a channel has numbers
 * from 0 to 7 and round again; what comes too early, within a window of four,
 * is held back until what lacks is there. */

struct held {
    int length;
    char *bytes;
};

struct channel {
    int open;
    int wanted;
    int taken;
    int refused;
    struct held window[WINDOW];
};

struct channel channels[CHANNELS];
int pushed;
int frames;
int bad;

int digit(int c)
{
    if (c >= '0' && c <= '9')
        return c - '0';
    if (c >= 'a' && c <= 'f')
        return c - 'a' + 10;
    return -1;
}

/* A byte of the line as it stands there, or -1 at its end. */
int raw(void)
{
    int high = getchar();
    int low;
    while (high == ' ' || high == '\n')
        high = getchar();
    low = getchar();
    if (digit(high) < 0 || digit(low) < 0)
        return -1;
    return 16 * digit(high) + digit(low);
}

/* A byte of a frame; -1 at the end of the line, -2 where another frame begins. */
int byte(void)
{
    int b = raw();
    if (b == 0x7e) {
        pushed = 1;
        return -2;
    }
    if (b == 0x7d) {
        b = raw();
        if (b < 0)
            return -1;
        b = b ^ 32;
    }
    return b;
}

int begin(void)
{
    int b;
    if (pushed) {
        pushed = 0;
        return 1;
    }
    b = raw();
    while (b >= 0 && b != 0x7e)
        b = raw();
    return b >= 0;
}

void complain(char *what)
{
    printf("frame %d: %s\n", frames, what);
    bad++;
}

void show(char *bytes, int length)
{
    int i;
    for (i = 0; i < length; i++)
        putchar(bytes[i] >= 32 && bytes[i] < 127 ? bytes[i] : '.');
}

void clear(struct channel *channel)
{
    int i;
    channel->wanted = 0;
    for (i = 0; i < WINDOW; i++) {
        channel->window[i].length = 0;
        channel->window[i].bytes = NULL;
    }
}

void open_channel(int which)
{
    if (channels[which].open) {
        complain("open already");
        return;
    }
    clear(&channels[which]);
    channels[which].open = 1;
    printf("open %d\n", which);
}

/* Hands on what is next, and what was held behind it. */
void deliver(struct channel *channel)
{
    int i;
    while (channel->window[0].bytes != NULL) {
        show(channel->window[0].bytes, channel->window[0].length);
        putchar('\n');
        free(channel->window[0].bytes);
        channel->taken++;
        channel->wanted = (channel->wanted + 1) % NUMBERS;
        for (i = 1; i < WINDOW; i++) {
            channel->window[i - 1].bytes = channel->window[i].bytes;
            channel->window[i - 1].length = channel->window[i].length;
        }
        channel->window[WINDOW - 1].bytes = NULL;
    }
}

void data(int which, int number, char *bytes, int length)
{
    struct channel *channel = &channels[which];
    int ahead = (number - channel->wanted + NUMBERS) % NUMBERS;
    char *copy;
    int i;
    if (!channel->open) {
        complain("not open");
        return;
    }
    if (ahead >= WINDOW) {
        complain("outside of the window");
        channel->refused++;
        return;
    }
    if (channel->window[ahead].bytes != NULL) {
        complain("twice");
        return;
    }
    copy = malloc((length + 1) * sizeof(char));
    if (copy == NULL)
        exit(3);
    for (i = 0; i < length; i++)
        copy[i] = bytes[i];
    channel->window[ahead].bytes = copy;
    channel->window[ahead].length = length;
    if (ahead > 0)
        printf("held %d\n", number);
    deliver(channel);
}

void close_channel(int which)
{
    struct channel *channel = &channels[which];
    int i;
    int lost = 0;
    if (!channel->open) {
        complain("not open");
        return;
    }
    for (i = 0; i < WINDOW; i++) {
        if (channel->window[i].bytes != NULL) {
            free(channel->window[i].bytes);
            channel->window[i].bytes = NULL;
            lost++;
        }
    }
    channel->open = 0;
    printf("close %d: taken %d refused %d lost %d\n", which, channel->taken, channel->refused, lost);
    channel->taken = 0;
    channel->refused = 0;
}

void query(int which)
{
    int i;
    struct channel *channel = &channels[which];
    printf("channel %d: %s wants %d holds", which, channel->open ? "open" : "closed", channel->wanted);
    for (i = 0; i < WINDOW; i++)
        if (channel->window[i].bytes != NULL)
            printf(" %d", (channel->wanted + i) % NUMBERS);
    putchar('\n');
}

void frame(void)
{
    char bytes[LONGEST];
    int head[4];
    int sum = 0;
    int i;
    int b;
    for (i = 0; i < 4; i++) {
        head[i] = byte();
        if (head[i] < 0) {
            complain("a head without end");
            return;
        }
        sum += head[i];
    }
    if (head[3] > LONGEST) {
        complain("too long");
        return;
    }
    for (i = 0; i < head[3]; i++) {
        b = byte();
        if (b < 0) {
            complain("bytes are missing");
            return;
        }
        bytes[i] = b < 128 ? b : b - 256;
        sum += b;
    }
    b = byte();
    if (b != sum % 256) {
        complain("a wrong sum");
        return;
    }
    if (head[1] >= CHANNELS) {
        complain("no such channel");
        return;
    }
    if (head[0] == 1)
        open_channel(head[1]);
    else if (head[0] == 2)
        data(head[1], head[2] % NUMBERS, bytes, head[3]);
    else if (head[0] == 3)
        close_channel(head[1]);
    else if (head[0] == 4)
        query(head[1]);
    else
        complain("no such kind");
}

int main(void)
{
    int i;
    for (i = 0; i < CHANNELS; i++)
        clear(&channels[i]);
    while (begin()) {
        frames++;
        frame();
    }
    for (i = 0; i < CHANNELS; i++)
        if (channels[i].open)
            close_channel(i);
    printf("%d frames %d bad\n", frames, bad);
    return 0;
}
