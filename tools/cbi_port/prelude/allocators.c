#include <stdlib.h>
void *__cbi_value_malloc(unsigned n) { return malloc(n ? n : 1); }
void *__cbi_value_calloc(unsigned n, unsigned size) { return calloc(n, size); }
void *__cbi_value_realloc(void *old, unsigned n) { return realloc(old, n); }
void __cbi_value_free(void *old) { free(old); }
