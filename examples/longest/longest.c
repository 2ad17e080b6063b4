#include <stdio.h>
#define SIZE 12

/* Writes the longest word of a text. */
char word[SIZE];
char longest[SIZE];

int main(void)
{
    int c;
    int i;
    int length = 0;
    int most = 0;
    while ((c = getchar()) != EOF) {
        if (c == ' ' || c == '\n') {
            if (length > most) {
                for (i = 0; i < length; i++)
                    longest[i] = word[i];
                most = length;
            }
            length = 0;
        } else if (length <= SIZE) {
            word[length] = c;
            length++;
        }
    }
    for (i = 0; i < most; i++)
        putchar(longest[i]);
    putchar('\n');
    return 0;
}
