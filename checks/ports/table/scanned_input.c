#include <stdio.h>
int main(void)
{
    int n, m, k, c; unsigned u, x; char w[20], s[20], l; long long big; short h; unsigned char hh;
    k = scanf("%d,%d %u %x", &n, &m, &u, &x); printf("%d %d %d %u %u\n", k, n, m, u, x);
    k = scanf("%s %3s%*s %c", w, s, &l); printf("%d %s %s %c\n", k, w, s, l);
    k = scanf("%lld %hd %hhu%n", &big, &h, &hh, &m); printf("%d %lld %d %d\n", k, big, h, hh);
    k = scanf(" [%[^]]] %i %i", w, &n, &m); printf("%d %s %d %d\n", k, w, n, m);
    k = scanf("%d", &n); printf("%d\n", k);
    c = getchar(); ungetc(c, stdin); k = getchar(); printf("%c %c\n", c, k);
    printf("%d\n", sscanf("12 abc 7", "%d %s %d", &n, w, &m)); printf("%d %s %d\n", n, w, m);
    while ((c = getc(stdin)) != '\n') ;
    if (fgets(s, sizeof s, stdin)) printf("<%s>", s);
    k = scanf("%d", &n); printf("%d %d\n", k, feof(stdin) != 0);
    return 0;
}
/* reads
-5,12  7 ff
word abcdef Z
123456789012 -7 255
[a b] 0x1f 010
xyz
the line
*/
/* writes
4 -5 12 7 255
3 word abc Z
3 123456789012 -7 255
3 a b 31 8
0
x x
3
12 abc 7
<the line
>-1 1
status 0 */
