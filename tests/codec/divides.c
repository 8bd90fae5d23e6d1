/* Ways to turn a message number back, for tests/undivided, which has to refuse each but the first for what its name says. */
#include <stdint.h>

extern unsigned elsewhere(unsigned number);
extern unsigned (*volatile pointer)(unsigned number);

static void put(uint8_t parts[3], unsigned transaction, unsigned participant, unsigned kind) {
  parts[0] = (uint8_t)transaction;
  parts[1] = (uint8_t)participant;
  parts[2] = (uint8_t)kind;
}

void steps(uint16_t number, uint8_t parts[3]) {
  unsigned rest = number, transaction = 0, participant = 1;
  if (448 <= rest) {
    rest -= 448;
    for (int i = 0; i < 7; i++)
      if (8 <= rest) rest -= 8, transaction++;
    put(parts, transaction, rest + 1, 7);
    return;
  }
  for (int i = 0; i < 7; i++)
    if (56 <= rest) rest -= 56, transaction++;
  for (int i = 0; i < 7; i++)
    if (7 <= rest) rest -= 7, participant++;
  put(parts, transaction, participant, rest);
}

/* as dpr_message_parts was before Job 2 */
void divides_by_constants(uint16_t number, uint8_t parts[3]) {
  put(parts, number / 56, number % 56 / 7 + 1, number % 7);
}

/* what 448 and above would be, for the compiler a shift */
void divides_by_eight(uint16_t number, uint8_t parts[3]) { put(parts, (number - 448u) / 8, number % 8 + 1, 7); }

void divides_by_a_variable(uint16_t number, unsigned step, uint8_t parts[3]) {
  put(parts, number / step, 1, number % step);
}

__attribute__((noinline)) static unsigned quotient(unsigned number, unsigned step) { return number / step; }

__attribute__((noinline)) static unsigned below(unsigned number, unsigned step) { return quotient(number + 1, step) + 1; }

void divides_in_a_call(uint16_t number, unsigned step, uint8_t parts[3]) { put(parts, below(number, step), 1, 0); }

/* the reciprocal of 7 is 37 / 256 for what is below 56, and 37 is 1 + 4 + 32 */
void divides_by_additions(uint16_t number, uint8_t parts[3]) {
  unsigned rest = number & 63;
  put(parts, 0, ((rest + 4 * rest + 32 * rest) >> 8) + 1, 0);
}

void divides_by_a_high_byte(uint16_t number, uint8_t parts[3]) {
  unsigned high, rest = number & 63, product = rest + 4 * rest + 32 * rest;
  __asm__("movzbl %%ah, %0" : "=r"(high) : "a"(product));
  put(parts, 0, high + 1, 0);
}

void calls_out(uint16_t number, uint8_t parts[3]) { put(parts, elsewhere(number) + 1, 1, 0); }

void calls_a_pointer(uint16_t number, uint8_t parts[3]) { put(parts, pointer(number) + 1, 1, 0); }
