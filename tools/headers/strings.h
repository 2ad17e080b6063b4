/* The library of cbi-port: what there is of <strings.h>. */
#include <string.h>
#ifndef CBI_STRINGS
#define CBI_STRINGS
int strcasecmp(const char *, const char *);
int strncasecmp(const char *, const char *, size_t);
char *index(const char *, int);
char *rindex(const char *, int);
int ffs(int);
void bzero(void *, size_t);
void bcopy(const void *, void *, size_t);
int bcmp(const void *, const void *, size_t);
#endif
