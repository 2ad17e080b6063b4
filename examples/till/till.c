#include <stdio.h>
#include <stdlib.h>

/* A shop's till: reads prices, and writes a receipt. The first word has options: `b` for a brief receipt, which has the sum alone, and `d` for a
   discount, by which the dearest item costs half. */
struct item {
    int price;
    struct item *next;
};
struct item *items;

void list(int price)
{
    struct item *item = malloc(sizeof(struct item));
    item->price = price;
    item->next = items;
    items = item;
}

int main(void)
{
    int brief = 0;
    int discount = 0;
    int dearest = 0;
    int sum = 0;
    int price = 0;
    int c;
    struct item *item;
    while ((c = getchar()) != ' ') {
        brief |= c == 'b';
        discount |= c == 'd';
    }
    while ((c = getchar()) != EOF) {
        if (c >= '0' && c <= '9') {
            price = price * 10 + c - '0';
            continue;
        }
        sum += price;
        if (!brief)
            list(price);
        if (discount && price > dearest)
            dearest = price;
        price = 0;
    }
    if (discount) {
        for (item = items; item->price != dearest; item = item->next)
            ;
        item->price = dearest - dearest / 2;
        sum -= dearest / 2;
    }
    for (item = items; item; item = item->next)
        printf("%d\n", item->price);
    printf("sum %d\n", sum);
    return 0;
}
