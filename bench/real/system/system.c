/* What the library of cbi-port leaves out and the programs of this bench name: each of these fails, as POSIX lets it. A program that gcc
 * builds has those of its own library. */
#ifdef __CBI__
#include <dirent.h>
#include <errno.h>
#include <stdlib.h>
#include <sys/ioctl.h>
#include <sys/stat.h>
#include <termios.h>
#include <unistd.h>
#include <utime.h>

static int refused(int why) {
    errno = why;
    return -1;
}

int chmod(const char *name, mode_t mode) { return refused(EPERM); }
int fchmod(int file, mode_t mode) { return refused(EPERM); }
int fchown(int file, uid_t user, gid_t group) { return refused(EPERM); }
int utime(const char *name, const struct utimbuf *times) { return refused(EPERM); }
int mkdir(const char *name, mode_t mode) { return refused(EPERM); }
int rmdir(const char *name) { return refused(EPERM); }
int ioctl(int file, unsigned long request, ...) { return refused(ENOTTY); }
int tcgetattr(int file, struct termios *answer) { return refused(ENOTTY); }
int tcsetattr(int file, int when, const struct termios *wanted) { return refused(ENOTTY); }
char *mktemp(char *form) { return form; }
int setenv(const char *name, const char *value, int over) { return refused(ENOMEM); }

DIR *opendir(const char *name) {
    errno = ENOENT;
    return NULL;
}

struct dirent *readdir(DIR *folder) { return NULL; }
int closedir(DIR *folder) { return refused(EBADF); }
#endif
