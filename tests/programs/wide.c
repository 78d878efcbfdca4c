/* Arithmetic of 64 bits in halves of 32: sums with carry, comparison, shifts and long division. Each quotient is
   multiplied out again. The result is a checksum over the quotients, the remainders, how many of their bits are set,
   and the number of divisions that don't come out. */
#include "program.h"

struct wide {
  uint32_t low, high;
};

static const struct wide dividends[] = {
  {0x00000000, 0x00000000}, {0xffffffff, 0xffffffff}, {0x00000000, 0x80000000},
  {0x89abcdef, 0x01234567}, {0xffffffff, 0x00000000}, {0x00000001, 0xdeadbeef},
};

/* The last ones are above 2^63: there a doubled remainder may need a bit more than there is. */
static const struct wide divisors[] = {
  {0x00000001, 0x00000000}, {0x0000000a, 0x00000000}, {0xffffffff, 0x00000000},
  {0x00000000, 0x00000001}, {0x00000001, 0x80000000}, {0xfffffffe, 0xffffffff},
};

#define DIVIDENDS (sizeof dividends / sizeof dividends[0])
#define DIVISORS (sizeof divisors / sizeof divisors[0])

static struct wide sum(struct wide a, struct wide b)
{
  struct wide value = {a.low + b.low, a.high + b.high};
  value.high += value.low < a.low;
  return value;
}

static struct wide difference(struct wide a, struct wide b)
{
  struct wide value = {a.low - b.low, a.high - b.high};
  value.high -= a.low < b.low;
  return value;
}

static int less(struct wide a, struct wide b)
{
  return a.high == b.high ? a.low < b.low : a.high < b.high;
}

/* the lower 64 bits of a product */
static struct wide product(struct wide a, struct wide b)
{
  uint64_t lowest = (uint64_t)a.low * b.low;
  struct wide value = {(uint32_t)lowest, (uint32_t)(lowest >> 32)};
  value.high += a.low * b.high + a.high * b.low;
  return value;
}

static uint32_t bit(struct wide a, uint32_t place)
{
  return (place < 32 ? a.low : a.high) >> (place & 31) & 1;
}

/* The remainder comes back by the pointer. The divisor isn't 0. */
static struct wide quotient(struct wide dividend, struct wide divisor, struct wide *remainder)
{
  struct wide value = {0, 0}, rest = {0, 0};
  for (uint32_t place = 64; place-- > 0;) {
    uint32_t beyond = rest.high >> 31;
    rest = sum(rest, rest);
    rest.low |= bit(dividend, place);
    value = sum(value, value);
    if (beyond || !less(rest, divisor)) {
      rest = difference(rest, divisor);
      value.low |= 1;
    }
  }
  *remainder = rest;
  return value;
}

/* Adds neighbouring counts: of 1 bit each, then 2, 4, 8 and 16. */
static uint32_t bits_set(uint32_t word)
{
  word = (word & 0x55555555) + (word >> 1 & 0x55555555);
  word = (word & 0x33333333) + (word >> 2 & 0x33333333);
  word = (word & 0x0f0f0f0f) + (word >> 4 & 0x0f0f0f0f);
  word = (word & 0x00ff00ff) + (word >> 8 & 0x00ff00ff);
  return (word & 0x0000ffff) + (word >> 16);
}

/* Whether the dividend is the divisor times the quotient and the remainder, with a remainder below the divisor. */
static int comes_out(struct wide dividend, struct wide divisor, struct wide value, struct wide remainder)
{
  struct wide again = sum(product(divisor, value), remainder);
  int same = ((again.low ^ dividend.low) | (again.high ^ dividend.high)) == 0;
  return same & less(remainder, divisor);
}

uint32_t program(void)
{
  uint32_t checksum = CHECKSUM_START, wrong = 0;
  for (uint32_t i = 0; i < DIVIDENDS; i++)
    for (uint32_t j = 0; j < DIVISORS; j++) {
      struct wide remainder;
      struct wide value = quotient(dividends[i], divisors[j], &remainder);
      wrong += !comes_out(dividends[i], divisors[j], value, remainder);
      checksum = checksum_with(checksum, value.low);
      checksum = checksum_with(checksum, value.high);
      checksum = checksum_with(checksum, remainder.low);
      checksum = checksum_with(checksum, remainder.high);
      checksum = checksum_with(checksum, bits_set(value.low) + bits_set(remainder.high));
    }
  return checksum_with(checksum, wrong);
}
