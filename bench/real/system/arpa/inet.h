/* The order of bytes, for ports of programs that read numbers of many bytes. */
#ifndef __CBI__
#include_next <arpa/inet.h>
#elif !defined CBI_REAL_INET
#define CBI_REAL_INET
#include <stdint.h>
#define ntohl(n) ((uint32_t) (n) >> 24 | ((uint32_t) (n) >> 8 & 0xff00u) | ((uint32_t) (n) << 8 & 0xff0000u) | (uint32_t) (n) << 24)
#define ntohs(n) ((uint16_t) ((uint16_t) (n) >> 8 | (uint16_t) (n) << 8))
#define htonl ntohl
#define htons ntohs
#endif
