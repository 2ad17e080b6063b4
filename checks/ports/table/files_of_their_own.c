#include <errno.h>
#include <fcntl.h>
#include <stdio.h>
#include <stdlib.h>
#include <string.h>
#include <sys/stat.h>
#include <unistd.h>
int main(int argc, char **argv)
{
    char line[100], word[20];
    int n, a, b, c;
    struct stat st;
    FILE *f = fopen(argv[1], "r"), *g = fopen("table.txt", "r"), *h;
    printf("%d %d %d\n", argc, f != NULL, g != NULL);
    if (!f || !g) return 3;
    while (fgets(line, sizeof line, f)) printf("%ld:%s", ftell(f), line);
    printf("%d %d\n", feof(f) != 0, ferror(f));
    rewind(f);
    printf("%d %c\n", feof(f), fgetc(f));
    n = fscanf(g, "%d %d %s", &a, &b, word);
    printf("%d %d %d %s\n", n, a, b, word);
    printf("%d\n", fseek(g, -4, SEEK_END));
    c = getc(g); ungetc(c, g); printf("%ld %c\n", ftell(g), c);
    n = fread(line, 1, sizeof line, g); printf("%d %d\n", n, feof(g) != 0);
    fclose(g); fclose(f);
    errno = 0; h = fopen("none/at/all", "r"); printf("%d %s\n", h == NULL, strerror(errno));
    h = fopen("out.txt", "w"); fprintf(h, "%d lines\n%s", 2, "second\n"); fputc('x', h); fputs("yz\n", h); printf("at %ld\n", ftell(h)); fclose(h);
    h = fopen("out.txt", "a+"); fputs("more\n", h); rewind(h); while ((c = fgetc(h)) != EOF) putchar(c); fclose(h);
    h = fopen("out.txt", "r+"); fseek(h, 2, SEEK_SET); fputs("LINES", h); rewind(h); fgets(line, 100, h); printf("%s", line); fclose(h);
    n = stat("out.txt", &st); printf("%d %d\n", n, (int)st.st_size);
    printf("%d %d\n", S_ISREG(st.st_mode), stat("nothing", &st));
    n = open("table.txt", O_RDONLY); printf("%d\n", n); c = read(n, line, 10); printf("%d %.*s|\n", c, c, line); printf("%d\n", (int)lseek(n, 0, SEEK_CUR)); close(n);
    printf("%d\n", (int)read(n, line, 4)); printf("%s\n", strerror(errno));
    fflush(stdout); n = write(1, "written\n", 8); 
    a = unlink("out.txt"); b = access("out.txt", F_OK); c = access("table.txt", R_OK); printf("%d %d %d\n", a, b, c);
    h = tmpfile(); fprintf(h, "%05d", 42); rewind(h); n = fscanf(h, "%d", &a); printf("%d %d\n", n, a); fclose(h);
    n = isatty(0); printf("%d %d\n", n, errno == ENOTTY || errno == EINVAL);
    { struct stat in, table, again, by; n = stat(argv[1], &in) | stat("table.txt", &table) | stat("./table.txt", &again);
      c = open("table.txt", O_RDONLY); n |= fstat(c, &by); close(c);
      printf("%d %d %d %d %d\n", n, in.st_dev == table.st_dev, in.st_ino == table.st_ino, table.st_ino == again.st_ino, table.st_ino == by.st_ino); }
    return 0;
}
/* words in.txt -x */
/* file table.txt
12 34 words here
second line
end
*/
/* reads
one
two

last
*/
/* writes
3 1 1
4:one
8:two
9:
14:last
1 0
0 o
3 12 34 words
0
29 e
4 1
1 No such file or directory
at 19
2 lines
second
xyz
more
2 LINES
0 24
1 -1
3
10 12 34 word|
10
-1
Bad file descriptor
written
0 -1 0
1 42
0 1
0 1 0 1 1
status 0 */
