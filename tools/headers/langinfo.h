/* The library of cbi-port: what <langinfo.h> declares; only what docs/PORTING.md names is there. */
#ifndef CBI_LANGINFO
#define CBI_LANGINFO
typedef int nl_item;
typedef void *locale_t;
#define CODESET 14
#define RADIXCHAR 65536
#define THOUSEP 65537
#define D_T_FMT 131112
#define D_FMT 131113
#define T_FMT 131114
#define YESEXPR 327680
#define NOEXPR 327681
char *nl_langinfo(nl_item);
char *nl_langinfo_l(nl_item, locale_t);
#endif
