/* What each test program is: one function without arguments whose value is the result of the whole run. */
#ifndef PROGRAM_H
#define PROGRAM_H

#include <stdint.h>

uint32_t program(void);

/* One step of a checksum over words, with the numbers of FNV-1a. The multiplier is odd, so two runs that differ in
   one word alone never end with the same checksum. */
#define CHECKSUM_START 2166136261u

static inline uint32_t checksum_with(uint32_t checksum, uint32_t word)
{
  return (checksum ^ word) * 16777619u;
}

#endif
