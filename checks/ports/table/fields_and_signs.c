#include <stdlib.h>
struct bits { unsigned a:4, b:4; int c:3; } b = { 15, 1, -1 };
typedef unsigned long ulong; ulong x = 1ul << 31; static signed char sc = -128; static unsigned char ucs[3] = { 254, 255, 0 };
int i1 = sizeof (struct bits); short sh = (short) 0x8000;
long arr[] = { -1, 0x7fffffff, 'a', sizeof (int) };
int main (void) { if (b.a + b.b != 16 || b.c != -1 || x != 0x80000000ul || sc != -128 || ucs[1]++ != 255 || ucs[1] || -sc != 128 || sh != -32768 || arr[1] != 2147483647) abort ();
 b.a++; b.b = b.a - 1; if (b.a || b.b != 15) abort (); sc--; if (sc != 127) abort (); if ((unsigned char) ~ucs[0] != 1 || ucs[0] >> 1 != 127 || (ucs[0] ^ 0xff) != 1) abort ();
 if (((x >> 31) & 1) != 1 || (int) x >= 0 || (long) x / 2 != -1073741824) abort (); { unsigned short us = 0xffff; us += 2; if (us != 1 || us - 2 >= 0) abort (); } return 0; }
