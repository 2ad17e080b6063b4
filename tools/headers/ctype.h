/* The library of cbi-port: what there is of <ctype.h>. */
#ifndef CBI_CTYPE
#define CBI_CTYPE
int isspace(int);
int isblank(int);
int isdigit(int);
int isupper(int);
int islower(int);
int isalpha(int);
int isalnum(int);
int isxdigit(int);
int isprint(int);
int isgraph(int);
int iscntrl(int);
int ispunct(int);
int isascii(int);
int toascii(int);
int tolower(int);
int toupper(int);
#endif
