#include <stdlib.h>
int main(void)
{
    unsigned char uc = 255;
    signed char sc = 127;
    unsigned short us = 65535;
    short ss = 32767;
    char c = 127;
    uc++; if (uc != 0) abort();
    uc--; if (uc != 255) abort();
    uc += 300; if (uc != 43) abort();
    uc = ~uc; if (uc != 212) abort();
    uc >>= 1; if (uc != 106) abort();
    uc <<= 2; if (uc != 168) abort();
    uc /= 5; if (uc != 33) abort();
    sc++; if (sc != -128) abort();
    us++; if (us != 0) abort();
    if (--us != 65535) abort();
    if (us++ != 65535 || us != 0) abort();
    ss++; if (ss != -32768) abort();
    ss -= 1; if (ss != 32767) abort();
    if (ss++ != 32767) abort();
    if (ss-- != -32768 || ss != 32767) abort();
    c += 1; if (c != -128) abort();
    c = 200; if (c != -56) abort();
    if ((unsigned char)c != 200 || (short)70000 != 4464 || (unsigned short)-1 != 65535 || (signed char)255 != -1) abort();
    us = -1; ss = us; if (ss != -1 || us != 65535) abort();
    uc = 200; sc = uc; if (sc != -56) abort();
    if ((uc << 8) != 51200 || -uc != -200 || ~uc != -201) abort();
    us = 65535; if (us * 2 != 131070) abort();
    { unsigned char a[3] = { 250, 251, 252 }; unsigned char *p = a; int i = 0; a[i++] += 10; if (i != 1 || a[0] != 4 || *++p != 251 || (*p)-- != 251 || *p != 250) abort(); }
    { short a[3] = { 32767, 1, 2 }; short *p = a; int i = 0; a[i++]++; if (i != 1 || a[0] != -32768 || p[0]-- != -32768 || *p != 32767) abort(); }
    return 0;
}
