#include <stdio.h>

/* Writes the greatest of each three digits. */
int greatest(int a, int b, int c)
{
    if (a > b) {
        if (a > c)
            return a;
        else
            return b;
    }
    if (b > c)
        return b;
    return c;
}

int main(void)
{
    int a;
    int b;
    int c;
    while ((a = getchar()) != EOF) {
        b = getchar();
        c = getchar();
        getchar();
        putchar(greatest(a, b, c));
    }
    putchar('\n');
    return 0;
}
