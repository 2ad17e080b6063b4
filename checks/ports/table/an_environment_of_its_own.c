#include <errno.h>
#include <stdio.h>
#include <stdlib.h>
#include <string.h>
#include <sys/ioctl.h>
#include <unistd.h>
#include <setjmp.h>
static jmp_buf out;
struct pair { int a, b; };
static void *memory(unsigned n) { if (n > 100) longjmp(out, 1); return malloc(n); }
static int made(int n)
{
    struct pair *p = memory(n * sizeof *p);
    p->a = n; p->b = 2 * n;
    n = p->a + p->b;
    free(p);
    return n;
}
int main(void)
{
    static char text[] = "CBI_TWO=put";
    struct winsize size;
    int n = ioctl(0, TIOCGWINSZ, &size), m = errno;
    char *value;
    printf("%d %d\n", n, m == ENOTTY || m == EINVAL);
    n = ioctl(77, TIOCGWINSZ, &size); printf("%d %d\n", n, errno == EBADF);
    printf("%ld %ld\n", pathconf("/", _PC_PATH_MAX), pathconf("/", _PC_NAME_MAX));
    n = getenv("CBI_ONE") == NULL; m = setenv("CBI_ONE", "first", 0); printf("%d %d %s\n", n, m, getenv("CBI_ONE"));
    n = setenv("CBI_ONE", "second", 0); printf("%d %s\n", n, getenv("CBI_ONE"));
    n = setenv("CBI_ONE", "third one", 1); printf("%d %s\n", n, getenv("CBI_ONE"));
    n = putenv(text); text[9] = 'e'; printf("%d %s\n", n, getenv("CBI_TWO"));
    n = setenv("A=B", "x", 1); printf("%d %d\n", n, errno == EINVAL);
    n = unsetenv("CBI_ONE"); value = getenv("CBI_ONE"); printf("%d %d %s\n", n, value == NULL, getenv("CBI_TWO"));
    n = unsetenv("CBI_ONE"); printf("%d %d\n", n, getenv("CBI") == NULL);
    if (!setjmp(out)) { printf("%d\n", made(4)); printf("%d\n", made(40)); } else printf("too much\n");
    return 0;
}
/* writes
-1 1
-1 1
4096 255
1 0 first
0 first
0 third one
0 pet
-1 1
0 1 pet
0 1
12
too much
status 0 */
