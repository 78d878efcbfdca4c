/* The eight instructions of the M extension on each pair of corner values, among them division by zero and the
   signed division that overflows. The result is a checksum over all their values.

   On RISC-V each function below is its one instruction. Elsewhere it is what chapter "M" of the unprivileged
   standard says of it, in plain C: two accounts of the same eight functions that have to agree. */
#include "program.h"

#ifdef __riscv

#define INSTRUCTION(name)                                                   \
  static uint32_t name(uint32_t a, uint32_t b)                              \
  {                                                                         \
    uint32_t value;                                                         \
    __asm__ volatile(#name " %0, %1, %2" : "=r"(value) : "r"(a), "r"(b));   \
    return value;                                                           \
  }

INSTRUCTION(mul)
INSTRUCTION(mulh)
INSTRUCTION(mulhsu)
INSTRUCTION(mulhu)
INSTRUCTION(div)
INSTRUCTION(divu)
INSTRUCTION(rem)
INSTRUCTION(remu)

#else

static int64_t with_sign(uint32_t word)
{
  return word < 0x80000000u ? (int64_t)word : (int64_t)word - 0x100000000;
}

/* bits 63 to 32 of a product whose 64 bits are these */
static uint32_t upper_half(uint64_t product)
{
  return (uint32_t)(product >> 32);
}

static uint32_t mul(uint32_t a, uint32_t b)
{
  return (uint32_t)((uint64_t)a * b);
}

static uint32_t mulh(uint32_t a, uint32_t b)
{
  return upper_half((uint64_t)(with_sign(a) * with_sign(b)));
}

static uint32_t mulhsu(uint32_t a, uint32_t b)
{
  return upper_half((uint64_t)(with_sign(a) * (int64_t)b));
}

static uint32_t mulhu(uint32_t a, uint32_t b)
{
  return upper_half((uint64_t)a * b);
}

/* In 64 bits -2^31 / -1 is 2^31, whose lower 32 bits are those of the overflow: -2^31. */
static uint32_t div(uint32_t a, uint32_t b)
{
  return b == 0 ? 0xffffffffu : (uint32_t)(with_sign(a) / with_sign(b));
}

static uint32_t divu(uint32_t a, uint32_t b)
{
  return b == 0 ? 0xffffffffu : a / b;
}

static uint32_t rem(uint32_t a, uint32_t b)
{
  return b == 0 ? a : (uint32_t)(with_sign(a) % with_sign(b));
}

static uint32_t remu(uint32_t a, uint32_t b)
{
  return b == 0 ? a : a % b;
}

#endif

static const uint32_t corners[] = {
  0x00000000, 0x00000001, 0x00000002, 0x00000003, 0x00000007, 0x0000ffff, 0x00010000, 0x00010001,
  0x55555555, 0x7ffffffe, 0x7fffffff, 0x80000000, 0x80000001, 0xaaaaaaaa, 0xffff0000, 0xfffffff9,
  0xfffffffd, 0xfffffffe, 0xffffffff, 0x12345678, 0xdeadbeef,
};

#define CORNERS (sizeof corners / sizeof corners[0])

static uint32_t checksum_with_pair(uint32_t checksum, uint32_t a, uint32_t b)
{
  checksum = checksum_with(checksum, mul(a, b));
  checksum = checksum_with(checksum, mulh(a, b));
  checksum = checksum_with(checksum, mulhsu(a, b));
  checksum = checksum_with(checksum, mulhu(a, b));
  checksum = checksum_with(checksum, div(a, b));
  checksum = checksum_with(checksum, divu(a, b));
  checksum = checksum_with(checksum, rem(a, b));
  return checksum_with(checksum, remu(a, b));
}

uint32_t program(void)
{
  uint32_t checksum = CHECKSUM_START;
  for (uint32_t i = 0; i < CORNERS; i++)
    for (uint32_t j = 0; j < CORNERS; j++)
      checksum = checksum_with_pair(checksum, corners[i], corners[j]);
  return checksum;
}
