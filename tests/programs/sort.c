/* Quicksort of 64 signed words. The result is a checksum over the sorted words and over the number of neighbours
   that are in the wrong order. */
#include "program.h"

#define COUNT 64

/* Not static: the compiler then has to leave the zeros of the end in memory. */
int32_t items[COUNT];

/* the ends of the signed range, both signs, and equal ones */
static const int32_t corners[] = {
  INT32_MAX, 0, INT32_MIN, -1, 1, INT32_MIN, -1, INT32_MAX - 1, INT32_MIN + 1, 0,
};

#define CORNERS ((int32_t)(sizeof corners / sizeof corners[0]))

/* The generator is Marsaglia's xorshift with the shifts 13, 17 and 5. */
static void fill(void)
{
  uint32_t word = 2463534242u;
  for (int32_t i = 0; i < COUNT; i++) {
    if (i < CORNERS) {
      items[i] = corners[i];
    } else {
      word ^= word << 13;
      word ^= word >> 17;
      word ^= word << 5;
      items[i] = (int32_t)word;
    }
  }
}

/* Sorts the items from first to last. It calls itself on the smaller part only, so the stack stays small. */
static void sort(int32_t first, int32_t last)
{
  while (first < last) {
    int32_t pivot = items[first + (last - first) / 2];
    int32_t low = first, high = last;
    while (low <= high) {
      while (items[low] < pivot)
        low++;
      while (items[high] > pivot)
        high--;
      if (low <= high) {
        int32_t item = items[low];
        items[low++] = items[high];
        items[high--] = item;
      }
    }
    if (high - first < last - low) {
      sort(first, high);
      first = low;
    } else {
      sort(low, last);
      last = high;
    }
  }
}

uint32_t program(void)
{
  fill();
  sort(0, COUNT - 1);
  uint32_t checksum = CHECKSUM_START, wrong = 0;
  for (int32_t i = 0; i < COUNT; i++) {
    wrong += i > 0 && items[i - 1] > items[i];
    checksum = checksum_with(checksum, (uint32_t)items[i]);
  }
  /* The report of the run would name each word that is left. */
  for (int32_t i = 0; i < COUNT; i++)
    items[i] = 0;
  return checksum_with(checksum, wrong);
}
