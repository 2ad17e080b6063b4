#include <stdio.h>

/* Reads an order, a letter and a digit, as b6: six of b. Writes what it costs. */
int main(void)
{
    int what = getchar();
    int many = getchar() - '0';
    int price = 3;

    if (what == 'b')
        price = 5;
    if (many > 4)
        price = price - 1;
    printf("%d\n", price * many);
    return 0;
}
