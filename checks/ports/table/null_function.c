#include <stdio.h>
int (*f)(int);
int main(void) { printf("before\n"); return f(3); }
/* writes
before
trap 8 */
