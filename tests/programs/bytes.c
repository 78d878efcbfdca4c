/* Bytes and half-words, with sign and without, read and written: the running sums of signed samples, the count of
   each letter in a sentence, and the transpose of a matrix of 8 by 8 bits. The result is a checksum over all three.
   The arrays stay as they are, so the report of a run shows the words that bytes and half-words were written to. */
#include "program.h"

#define SAMPLES 24
#define LETTERS 26
#define ROWS 8

static const int8_t samples[SAMPLES] = {
  0, 127, -128, 1, -1, 64, -64, 100, -100, -100, -100, 5, 127, 127, 127, -7, -128, -128, -128, -128, 33, 90, -90, 2,
};

static const uint8_t sentence[] = "The Quick Brown Fox Jumps Over The Lazy Dog: zzz!";

/* Not static: the compiler then has to leave the last values in memory. */
int16_t sums[SAMPLES];
uint16_t counts[LETTERS];
uint8_t matrix[ROWS] = {0x01, 0x83, 0xff, 0x10, 0x00, 0x7e, 0xaa, 0xc4};

/* The value is the number of samples below -50. The sums begin near the top of their range, so they wrap. */
static uint32_t sum_up(void)
{
  int16_t sum = 32600;
  uint32_t below = 0;
  for (uint32_t i = 0; i < SAMPLES; i++) {
    sum = (int16_t)(sum + samples[i]);
    sums[i] = sum;
    below += samples[i] < -50;
  }
  return below;
}

/* The letters count without regard to capitals. The counts begin high, so that some have the highest bit set. */
static void count_letters(void)
{
  for (uint32_t i = 0; i < LETTERS; i++)
    counts[i] = 0x7ffe;
  for (const uint8_t *at = sentence; *at != 0; at++) {
    uint8_t letter = *at | 0x20;
    if (letter >= 'a' && letter <= 'z')
      counts[letter - 'a']++;
  }
}

/* Bit j of row i and bit i of row j change places. */
static void transpose(void)
{
  for (uint32_t i = 0; i < ROWS; i++)
    for (uint32_t j = 0; j < i; j++) {
      uint8_t differ = (matrix[i] >> j ^ matrix[j] >> i) & 1;
      matrix[i] ^= (uint8_t)(differ << j);
      matrix[j] ^= (uint8_t)(differ << i);
    }
}

uint32_t program(void)
{
  uint32_t checksum = checksum_with(CHECKSUM_START, sum_up());
  count_letters();
  transpose();
  for (uint32_t i = 0; i < SAMPLES; i++)
    checksum = checksum_with(checksum, (uint32_t)(int32_t)sums[i]);
  for (uint32_t i = 0; i < LETTERS; i++)
    checksum = checksum_with(checksum, counts[i]);
  for (uint32_t i = 0; i < ROWS; i++)
    checksum = checksum_with(checksum, matrix[i]);
  return checksum;
}
