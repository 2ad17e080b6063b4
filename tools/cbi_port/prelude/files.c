// Files (C99 7.19, POSIX 2.5): the one input, the one output, and files that are kept in memory.
#include <errno.h>
#include <fcntl.h>
#include <stdio.h>
#include <stdlib.h>
#include <string.h>
#include <sys/stat.h>
#include <unistd.h>
int __cbi_no(int number) { errno = number; return -1; }
#ifdef __CBI_OPENED__
#ifdef __CBI_GIVEN__
#include "__cbi_given.h"
#endif
#ifdef __CBI_WORDS__
char *__cbi_input_name(void) { int n = 1; while (__cbi_word(n)) { if (*__cbi_word(n) != '-') return __cbi_word(n); n++; } return 0; }
#endif
// A file that has no room of its own has a constant text.
struct __cbi_file { char *name; char *text; unsigned length; unsigned room; int number; struct __cbi_file *next; };
// What a descriptor is: those below 3 without a file are the input and the outputs, but for closed ones.
struct __cbi_open { struct __cbi_file *file; unsigned at; int flags; };
struct __cbi_files_state { struct __cbi_file *first; struct __cbi_open open[64]; int ready; int made; int files; };
struct __cbi_files_state __cbi_files;
struct __cbi_file *__cbi_new_file(const char *name, char *text, unsigned length) {
    struct __cbi_file *file = malloc(sizeof(struct __cbi_file));
    file->name = strdup(name);
    file->text = text;
    file->length = length;
    file->room = 0;
    __cbi_files.files++;
    file->number = __cbi_files.files;
    file->next = __cbi_files.first;
    __cbi_files.first = file;
    return file;
}
void __cbi_grow(struct __cbi_file *file, unsigned length) {
    char *text; unsigned n;
    if (length <= file->room) return;
    text = malloc(2 * length + 64);
    for (n = 0; n < file->length; n++) text[n] = file->text[n];
    if (file->room) free(file->text);
    file->text = text;
    file->room = 2 * length + 64;
}
void __cbi_files_begin(void) {
#ifdef __CBI_GIVEN__
    int n;
#endif
#ifdef __CBI_INPUT__
    struct __cbi_file *file; int c;
#endif
    if (__cbi_files.ready) return;
    __cbi_files.ready = 1;
#ifdef __CBI_GIVEN__
    for (n = 0; n < __cbi_given_count(); n++) __cbi_new_file(__cbi_given_name(n), (char *)__cbi_given_text(n), __cbi_given_length(n));
#endif
#ifdef __CBI_INPUT__
    if (!__cbi_input_name()) return;
    file = __cbi_new_file(__cbi_input_name(), 0, 0);
    while ((c = getchar()) != -1) { __cbi_grow(file, file->length + 1); file->text[file->length] = c; file->length++; }
    __cbi_files.open[0].file = file;
#endif
}
const char *__cbi_plain_path(const char *name) { while (name[0] == '.' && name[1] == '/') name += 2; return name; }
struct __cbi_file *__cbi_find(const char *name) {
    struct __cbi_file *file;
    __cbi_files_begin();
    name = __cbi_plain_path(name);
    for (file = __cbi_files.first; file; file = file->next) if (strcmp(__cbi_plain_path(file->name), name) == 0) return file;
    return strcmp(name, "/dev/null") ? 0 : __cbi_new_file(name, 0, 0);
}
int __cbi_is_open(int number) { return number >= 0 && number < 64 && (__cbi_files.open[number].file || number < 3 && __cbi_files.open[number].flags != -1); }
int __cbi_read_byte(int number) {
    struct __cbi_open *from = __cbi_files.open + number;
    __cbi_files_begin();
    if (!__cbi_is_open(number) || (from->flags & 3) == O_WRONLY || !from->file && number) { errno = EBADF; return -2; }
    if (!from->file) return getchar();
    if (from->at >= from->file->length) return -1;
    from->at++;
    return from->file->text[from->at - 1] & 255;
}
int __cbi_write_byte(int number, int c) {
    struct __cbi_open *to = __cbi_files.open + number;
    struct __cbi_file *file;
    if (!__cbi_is_open(number) || to->file && !(to->flags & 3) || !to->file && !number) return __cbi_no(EBADF);
    file = to->file;
    if (!file) { if (number == 1 || __cbi_join_stderr()) putchar(c); return 0; }
    if (to->flags & O_APPEND) to->at = file->length;
    if (strcmp(file->name, "/dev/null") == 0) return 0;
    __cbi_grow(file, to->at < file->length ? file->length : to->at + 1);
    while (file->length < to->at) { file->text[file->length] = 0; file->length++; }
    file->text[to->at] = c;
    to->at++;
    if (to->at > file->length) file->length = to->at;
    return 0;
}
int open(const char *name, int flags, ...) {
    int n = 0;
    struct __cbi_file *file = __cbi_find(name);
    if (!file) { if (!(flags & O_CREAT) || !*name) return __cbi_no(ENOENT); file = __cbi_new_file(name, 0, 0); }
    else if ((flags & O_CREAT) && (flags & O_EXCL)) return __cbi_no(EEXIST);
    if ((flags & O_TRUNC) && (flags & 3)) file->length = 0;
    while (__cbi_is_open(n)) n++;
    if (n >= 64) return __cbi_no(EMFILE);
    __cbi_files.open[n].file = file;
    __cbi_files.open[n].at = 0;
    __cbi_files.open[n].flags = flags;
    return n;
}
int creat(const char *name, unsigned mode) { return open(name, O_WRONLY | O_CREAT | O_TRUNC); }
int close(int number) {
    if (!__cbi_is_open(number)) return __cbi_no(EBADF);
    __cbi_files.open[number].file = 0;
    __cbi_files.open[number].flags = -1;
    return 0;
}
int dup2(int from, int to) {
    if (!__cbi_is_open(from) || to < 0 || to >= 64 || from != to && !__cbi_files.open[from].file) return __cbi_no(EBADF);
    if (from != to) __cbi_files.open[to] = __cbi_files.open[from];
    return to;
}
int dup(int from) { int n = 0; while (__cbi_is_open(n)) n++; if (n >= 64) return __cbi_no(EMFILE); return dup2(from, n); }
int lseek(int number, int offset, int from) {
    struct __cbi_open *it = __cbi_files.open + number;
    __cbi_files_begin();
    if (!__cbi_is_open(number)) return __cbi_no(EBADF);
    if (!it->file) return __cbi_no(ESPIPE);
    if (from == SEEK_CUR) offset += (int)it->at; else if (from == SEEK_END) offset += (int)it->file->length; else if (from != SEEK_SET) return __cbi_no(EINVAL);
    if (offset < 0) return __cbi_no(EINVAL);
    it->at = offset;
    return offset;
}
int ftruncate(int number, int length) {
    struct __cbi_file *file;
    if (!__cbi_is_open(number) || !(file = __cbi_files.open[number].file) || !(__cbi_files.open[number].flags & 3) || length < 0) return __cbi_no(EINVAL);
    __cbi_grow(file, length);
    while (file->length < (unsigned)length) { file->text[file->length] = 0; file->length++; }
    file->length = length;
    return 0;
}
int unlink(const char *name) {
    struct __cbi_file *file = __cbi_find(name); struct __cbi_file *before = __cbi_files.first;
    if (!file) return __cbi_no(ENOENT);
    if (before == file) { __cbi_files.first = file->next; return 0; }
    while (before->next != file) before = before->next;
    before->next = file->next;
    return 0;
}
int rename(const char *from, const char *to) {
    struct __cbi_file *file = __cbi_find(from);
    if (!file) return __cbi_no(ENOENT);
    if (__cbi_find(to) == file) return 0;
    if (__cbi_find(to)) unlink(to);
    file->name = strdup(to);
    return 0;
}
int access(const char *name, int mode) { if (!__cbi_find(name)) return __cbi_no(ENOENT); return mode & X_OK ? __cbi_no(EACCES) : 0; }
int __cbi_flags(const char *mode) {
    int flags = mode[0] == 'r' ? 0 : mode[0] == 'w' ? O_WRONLY | O_CREAT | O_TRUNC : mode[0] == 'a' ? O_WRONLY | O_CREAT | O_APPEND : -1;
    if (flags >= 0 && strchr(mode, '+')) flags = flags & ~3 | O_RDWR;
    if (flags >= 0 && strchr(mode, 'x')) flags = flags | O_EXCL;
    return flags;
}
struct __cbi_FILE *__cbi_stream(int number) {
    struct __cbi_FILE *f;
    if (number < 0) return 0;
    f = malloc(sizeof(struct __cbi_FILE));
    f->number = number;
    f->back = 0; f->ahead = 0; f->ended = 0; f->failed = 0;
    return f;
}
struct __cbi_FILE *fopen(const char *name, const char *mode) { int flags = __cbi_flags(mode); if (flags == -1) { errno = EINVAL; return 0; } return __cbi_stream(open(name, flags)); }
struct __cbi_FILE *fdopen(int number, const char *mode) { __cbi_files_begin(); if (__cbi_flags(mode) == -1) { errno = EINVAL; return 0; } if (!__cbi_is_open(number)) { errno = EBADF; return 0; } return __cbi_stream(number); }
struct __cbi_FILE *freopen(const char *name, const char *mode, struct __cbi_FILE *f) {
    int flags = __cbi_flags(mode); int number;
    __cbi_files_begin();
    close(f->number);
    if (flags == -1 || !name) { errno = EINVAL; return 0; }
    number = open(name, flags);
    if (number < 0) return 0;
    f->number = number;
    f->ahead = 0; f->ended = 0; f->failed = 0;
    return f;
}
struct __cbi_FILE *tmpfile(void) {
    struct __cbi_FILE *f;
    char name[20];
    f = fopen(tmpnam(name), "w+");
    unlink(name);
    return f;
}
char *__cbi_made_name(char *at) {
    int n; int left;
    __cbi_files.made++;
    left = __cbi_files.made;
    for (n = 5; n >= 0; n--) { at[n] = 'a' + left % 26; left = left / 26; }
    return at;
}
struct __cbi_name_state { char text[20]; };
struct __cbi_name_state __cbi_name;
char *tmpnam(char *to) { if (!to) to = __cbi_name.text; strcpy(to, "/tmp/fileXXXXXX"); do __cbi_made_name(to + 9); while (__cbi_find(to)); return to; }
int mkstemp(char *name) {
    int length = strlen(name);
    if (length < 6 || strcmp(name + length - 6, "XXXXXX")) return __cbi_no(EINVAL);
    do __cbi_made_name(name + length - 6); while (__cbi_find(name));
    return open(name, O_RDWR | O_CREAT | O_EXCL);
}
int fclose(struct __cbi_FILE *f) { int done = close(f->number); if (f != &__cbi_in && f != &__cbi_out && f != &__cbi_errors) free(f); return done; }
// Each file has a number of its own, the folder 2 and a descriptor that is no file one from 3 on.
void __cbi_status(struct stat *to, unsigned mode, unsigned length, int number) {
    to->st_dev = 1; to->st_ino = number; to->st_mode = mode; to->st_nlink = 1; to->st_uid = 1000; to->st_gid = 1000; to->st_rdev = 0; to->st_size = length;
    to->st_blksize = 4096; to->st_blocks = (length + 511) / 512; to->st_atime = 0; to->st_mtime = 0; to->st_ctime = 0;
}
int stat(const char *name, struct stat *to) {
    struct __cbi_file *file = __cbi_find(name);
    if (!file) { if (strcmp(name, ".") && strcmp(name, "/")) return __cbi_no(ENOENT); __cbi_status(to, S_IFDIR | 0755, 4096, 2); return 0; }
    __cbi_status(to, S_IFREG | 0644, file->length, 16 + file->number);
    return 0;
}
int fstat(int number, struct stat *to) {
    struct __cbi_file *file;
    __cbi_files_begin();
    if (!__cbi_is_open(number)) return __cbi_no(EBADF);
    file = __cbi_files.open[number].file;
    if (file) __cbi_status(to, S_IFREG | 0644, file->length, 16 + file->number);
    else __cbi_status(to, S_IFIFO | 0600, 0, 3 + number);
    return 0;
}
#else
int __cbi_is_open(int number) { return number >= 0 && number < 3; }
int __cbi_read_byte(int number) { if (number) { errno = EBADF; return -2; } return getchar(); }
int __cbi_write_byte(int number, int c) { if (number < 1 || number > 2) return __cbi_no(EBADF); if (number == 1 || __cbi_join_stderr()) putchar(c); return 0; }
int close(int number) { return __cbi_is_open(number) ? 0 : __cbi_no(EBADF); }
int lseek(int number, int offset, int from) { return __cbi_no(__cbi_is_open(number) ? ESPIPE : EBADF); }
int ftruncate(int number, int length) { return __cbi_no(__cbi_is_open(number) ? EINVAL : EBADF); }
int unlink(const char *name) { return __cbi_no(ENOENT); }
int rename(const char *from, const char *to) { return __cbi_no(ENOENT); }
int access(const char *name, int mode) { return __cbi_no(ENOENT); }
struct __cbi_FILE *fopen(const char *name, const char *mode) { errno = ENOENT; return 0; }
int fclose(struct __cbi_FILE *f) { return 0; }
int stat(const char *name, struct stat *to) { return __cbi_no(ENOENT); }
int fstat(int number, struct stat *to) {
    if (!__cbi_is_open(number)) return __cbi_no(EBADF);
    to->st_dev = 1; to->st_ino = 3 + number; to->st_mode = S_IFIFO | 0600; to->st_nlink = 1; to->st_uid = 1000; to->st_gid = 1000; to->st_rdev = 0; to->st_size = 0;
    to->st_blksize = 4096; to->st_blocks = 0; to->st_atime = 0; to->st_mtime = 0; to->st_ctime = 0;
    return 0;
}
#endif
int lstat(const char *name, struct stat *to) { return stat(name, to); }
int remove(const char *name) { return unlink(name); }
int read(int number, void *to, unsigned count) {
    char *s = to; unsigned n = 0; int c = 0;
    if (count == 0) return __cbi_is_open(number) ? 0 : __cbi_no(EBADF);
    while (n < count && (c = __cbi_read_byte(number)) >= 0) { s[n] = c; n++; }
    return c == -2 ? -1 : (int)n;
}
int write(int number, const void *from, unsigned count) {
    const char *s = from; unsigned n;
    if (!__cbi_is_open(number)) return __cbi_no(EBADF);
    for (n = 0; n < count; n++) if (__cbi_write_byte(number, s[n])) return -1;
    return n;
}
int isatty(int number) { errno = __cbi_is_open(number) ? ENOTTY : EBADF; return 0; }
int fsync(int number) { return __cbi_is_open(number) ? 0 : __cbi_no(EBADF); }
int fdatasync(int number) { return fsync(number); }
int fseek(struct __cbi_FILE *f, int offset, int from) {
    if (from == SEEK_CUR) offset -= f->ahead;
    if (lseek(f->number, offset, from) < 0) return -1;
    f->ahead = 0; f->ended = 0;
    return 0;
}
int fseeko(struct __cbi_FILE *f, int offset, int from) { return fseek(f, offset, from); }
int ftell(struct __cbi_FILE *f) { int at = lseek(f->number, 0, SEEK_CUR); return at < 0 ? -1 : at - f->ahead; }
int ftello(struct __cbi_FILE *f) { return ftell(f); }
void rewind(struct __cbi_FILE *f) { fseek(f, 0, SEEK_SET); f->failed = 0; f->ended = 0; }
int fgetpos(struct __cbi_FILE *f, int *at) { *at = ftell(f); return *at < 0 ? -1 : 0; }
int fsetpos(struct __cbi_FILE *f, const int *at) { return fseek(f, *at, SEEK_SET); }
