/* A row that is not filled is not read. Its memory can't be read while a call that is to refuse the others runs, so that a call
 * which reads it is ended by the system. Its status is 0 where all answered as they have to. */
#include "commonware_math.h"

/* A row is whole pages of memory. */
enum { ROWS = 4, COLS = 8192, UNREAD = 2, NONE = 0, READ_AND_WRITE = 3 };

int mprotect(void *at, size_t bytes, int protection);

static _Alignas(65536) uint64_t cells[ROWS * COLS];

static void set_row(size_t row, uint64_t value) {
  for (size_t k = 0; k < COLS; k++) cells[row * COLS + k] = value;
}

static int protect(int protection) {
  return mprotect(cells + UNREAD * COLS, COLS * sizeof *cells, protection);
}

int main(void) {
  const uint8_t filled[ROWS] = {1, 1, 0, 1};
  size_t wrong[ROWS / 2], written = 7;
  set_row(0, 5);
  set_row(1, 6);
  set_row(UNREAD, UINT64_MAX);
  set_row(3, 7);
  if (protect(NONE) != 0) return 1;
  if (cwm_correct(cells, ROWS * COLS, COLS, filled, ROWS, 1, wrong, ROWS / 2, &written) != CWM_INCONSISTENT) return 2;
  set_row(3, CWM_MODULUS);
  if (cwm_recover(cells, ROWS * COLS, COLS, filled, ROWS) != CWM_OUT_OF_RANGE) return 3;
  if (protect(READ_AND_WRITE) != 0 || written != 7) return 4;

  /* What stands there is passed over also where the call is done. */
  set_row(3, 5);
  if (cwm_correct(cells, ROWS * COLS, COLS, filled, ROWS, 1, wrong, ROWS / 2, &written) != CWM_DONE) return 5;
  return written == 1 && wrong[0] == 1 && cells[0] == 5 && cells[UNREAD * COLS] == 0 ? 0 : 6;
}
