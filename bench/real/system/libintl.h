/* Messages in the C locale, which are what they are called by. */
#ifndef __CBI__
#include_next <libintl.h>
#elif !defined CBI_REAL_LIBINTL
#define CBI_REAL_LIBINTL
#include <locale.h>
#define gettext(text) ((char *) (text))
#define dgettext(domain, text) ((char *) (text))
#define dcgettext(domain, text, category) ((char *) (text))
#define ngettext(one, more, number) ((number) == 1 ? (char *) (one) : (char *) (more))
#define textdomain(domain) ((char *) (domain))
#define bindtextdomain(domain, folder) ((char *) (folder))
#define bind_textdomain_codeset(domain, set) ((char *) (set))
#endif
