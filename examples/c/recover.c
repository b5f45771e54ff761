/* A message is put into polynomials, their values are stored in rows, half of the rows are lost, and the
 * message is recovered from the others.
 *
 * COLS columns are polynomials of FEW coefficients; row i of ROWS rows holds their values at point i. */
#include "commonware_math.h"

#include <stdio.h>
#include <string.h>

enum { ROWS = 16, FEW = 8, COLS = 1 };

/* Says what a call answered, where it is not that it was done. */
static int is_refused(const char *call, uint32_t status) {
  char text[CWM_TEXT_SIZE];
  if (status == CWM_DONE) return 0;
  cwm_status_text(status, text, sizeof text);
  printf("%s: %s\n", call, text);
  return 1;
}

int main(void) {
  /* 56 bytes and a zero: 7 bytes a coefficient, so that each is below P */
  const char message[57] = "Any eight of the sixteen rows give the whole text back.\n";
  uint64_t cells[ROWS * COLS] = {0};
  uint8_t filled[ROWS];
  char found[57] = {0};

  for (int i = 0; i < FEW; i++) {
    for (int k = 0; k < 7; k++) cells[i] |= (uint64_t)(uint8_t)message[7 * i + k] << (8 * k);
  }
  if (is_refused("evaluate", cwm_evaluate(cells, ROWS * COLS, COLS))) return 1;

  /* rows 0, 1, 4, 5, 8, 9, 12 and 13 are lost: what stands there is not looked at */
  for (int i = 0; i < ROWS; i++) {
    filled[i] = i % 4 >= 2;
    if (!filled[i]) cells[i] = UINT64_C(0xffffffffffffffff);
  }
  if (is_refused("recover", cwm_recover(cells, ROWS * COLS, COLS, filled, ROWS))) return 1;

  for (int i = 0; i < FEW; i++) {
    for (int k = 0; k < 7; k++) found[7 * i + k] = (char)(cells[i] >> (8 * k));
  }
  printf("%s", found);
  printf("same: %s\n", memcmp(found, message, 56) == 0 ? "yes" : "no");

  /* one value from the others, by weights: row 0 of the coefficients is the value at zero */
  uint64_t value;
  if (is_refused("eval", cwm_eval(cells, FEW, 3, &value))) return 1;
  printf("value at 3: %llu\n", (unsigned long long)value);

  /* a word that is no element, and a number of rows that is no power of two, are refused */
  uint64_t wrong[3] = {0, CWM_MODULUS, 1};
  is_refused("evaluate", cwm_evaluate(wrong, 2, 1));
  is_refused("evaluate", cwm_evaluate(wrong, 3, 1));
  return 0;
}
