#include <stddef.h>
#include <stdlib.h>
wchar_t w[] = L"hi"; const wchar_t *p = L"abc";
int main (void) { if (w[1] != L'i' || sizeof w != 12 || p[2] != 'c' || p[3] || L"x"[0] != 'x') abort (); return 0; }
