/* Nothing of it is used by the programs that are ported with it. */
#ifndef __CBI__
#include_next <search.h>
#endif
