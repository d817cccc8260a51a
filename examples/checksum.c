#include <stdio.h>

/* The checksums of two words, CRC-16 from 0xffff on, each by a task of its own. */
#define START 0xffff
#define POLYNOMIAL 0x1021 // x^16 + x^12 + x^5 + 1

// The word that p points to becomes its checksum, from its highest bit on.
#pragma css task inout(p)
void checksum(int *p) {
  int sum = START;
  int bit = 32;
  while (bit > 0) {
    bit = bit - 1;
    if ((sum >> 15 ^ p[0] >> bit) & 1)
      sum = (sum << 1 ^ POLYNOMIAL) & 0xffff;
    else
      sum = sum << 1 & 0xffff;
  }
  p[0] = sum;
}

int main(void) {
  int first = 0x31323334; /* "1234" */
  int second = 0x35363738; /* "5678" */
  int both;
  int shift = 32;
  int digit;
  #pragma css start
  checksum(&first);
  checksum(&second);
  #pragma css barrier
  both = first << 16 | second;
  #pragma css finish
  while (shift > 0) {
    shift = shift - 4;
    digit = both >> shift & 0xf;
    if (digit < 10)
      putchar('0' + digit);
    else
      putchar('a' + digit - 10);
    if (shift == 16)
      putchar(' ');
  }
  putchar('\n');
  return 0;
}
