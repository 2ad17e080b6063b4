#include <stdio.h>
int a[4];
int at(int i) { return a[i]; }
int main(void) { printf("%d\n", at(3)); return at(4); }
/* writes
0
trap 6 */
