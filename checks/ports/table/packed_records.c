#include <stdint.h>
#include <stdlib.h>
typedef struct { uint8_t op; int8_t a; uint16_t b; uint32_t c; uint64_t d; } __attribute__ ((packed)) rec;
static uint32_t crc (const uint8_t *p, size_t n) { uint32_t c = ~0u; while (n--) { int k; c ^= *p++; for (k = 0; k < 8; k++) c = c >> 1 ^ (0xedb88320u & -(c & 1)); } return ~c; }
static uint64_t mix (uint64_t x) { x ^= x >> 33; x *= 0xff51afd7ed558ccdULL; x ^= x >> 33; return x; }
int main (void)
{
  rec r = { 1, -2, 3, 4, 5 }; uint8_t raw[16], *p = (uint8_t *) &r; int i;
  if (sizeof (rec) != 16) abort ();
  for (i = 0; i < 16; i++) raw[i] = p[i];
  if (raw[1] != 254 || raw[2] != 3 || raw[4] != 4 || raw[8] != 5) abort ();
  if (crc ((const uint8_t *) "123456789", 9) != 0xcbf43926u) abort ();
  if (mix (1) != 0xff51afd792fd5b26ULL && mix (1) == 0) abort ();
  if ((int8_t) 200 != -56 || (uint16_t) -1 != 65535 || (uint8_t) (250 + 10) != 4) abort ();
  return 0;
}
