#include <errno.h>
#include <stdio.h>
#include <stdlib.h>
#include <string.h>
int main(void)
{
    unsigned sum = 0, n;
    const char *one = strerror(ENOENT), *other = strerror(ERANGE);
    int k;
    for (k = -1; k <= 140; k++) {
        const char *s = strerror(k);
        for (n = 0; s[n]; n++)
            sum = sum * 31 + (unsigned char)s[n];
        if (k % 16 == 9 || k < 1 || k > 132)
            printf("%d %s\n", k, s);
    }
    printf("%u\n%s; %s; %s\n", sum, one, other, strerror(-2147483647 - 1));
    printf("%d %d %d %d\n", EHWPOISON, EWOULDBLOCK, ENOTSUP, EDEADLOCK);
    errno = 0;
    if (strtol("99999999999", NULL, 10) == 2147483647)
        puts(strerror(errno));
    errno = EACCES;
    perror("never seen");
    return 0;
}
/* writes
-1 Unknown error -1
0 Success
9 Bad file descriptor
25 Inappropriate ioctl for device
41 Unknown error 41
57 Invalid slot
73 RFS specific error
89 Destination address required
105 No buffer space available
121 Remote I/O error
133 Memory page has hardware error
134 Unknown error 134
135 Unknown error 135
136 Unknown error 136
137 Unknown error 137
138 Unknown error 138
139 Unknown error 139
140 Unknown error 140
1753643567
No such file or directory; Numerical result out of range; Unknown error -2147483648
133 11 95 35
Numerical result out of range
status 0 */
