/* Runs ccrypt on files of the input, and writes out what it left: their names, and the text of those that aren't encrypted.
 *
 * The tables of the cipher, which maketables.c prints as tables.c, are made by the functions of maketables.c itself, since as a text they are too large. */
#undef main
#define main maketables_main
#include "maketables.c"
#include "rijndael.h"
#define BEFORE make_tables(); atexit(leave);

static void make_tables(void);
static void leave(void);

#include "files_driver.c"

xword8x4 M0[4][256];
xword8x4 M1[4][256];
int xrcon[30];
xword8 xS[256];
xword8 xSi[256];

static void make_tables(void) {
    int turned, number, power = 1;
    makesboxes();
    for (turned = 0; turned < 4; turned++)
        for (number = 0; number < 256; number++) {
            multrot2113(turned, number, M0[turned][number].w8);
            multrote9db(turned, number, M1[turned][number].w8);
        }
    for (number = 0; number < 256; number++) {
        xS[number] = sbox[number];
        xSi[number] = sibox[number];
    }
    for (number = 0; number < 30; number++) {
        xrcon[number] = power;
        power = multiply(2, power);
    }
}

static void show(const char *name) {
    char text[400];
    FILE *file = fopen(name, "r");
    size_t length;
    if (!file) {
        printf("%s is gone\n", name);
        return;
    }
    length = fread(text, 1, sizeof text - 1, file);
    text[length] = 0;
    fclose(file);
    printf("%s: %d bytes\n%s", name, (int) length, strncmp(text, "text", 4) ? "" : text);
}

static void leave(void) {
    int number;
    for (number = 0; files[number]; number++)
        show(files[number]);
}
