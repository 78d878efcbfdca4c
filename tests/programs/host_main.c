/* Runs a program on the computer at hand, and prints its result as the report of `xif raw` writes a word. */
#include <inttypes.h>
#include <stdio.h>

#include "program.h"

int main(void)
{
  printf("0x%08" PRIx32 "\n", program());
  return 0;
}
