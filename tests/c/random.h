/* Random numbers that are the same in each run. */
#include <stdint.h>

static uint64_t state;

static uint64_t next(void) {
  uint64_t x = state += 0x9e3779b97f4a7c15;
  x = (x ^ x >> 30) * 0xbf58476d1ce4e5b9;
  x = (x ^ x >> 27) * 0x94d049bb133111eb;
  return x ^ x >> 31;
}
static uint32_t below(uint32_t n) { return (uint32_t)(next() % n); }
