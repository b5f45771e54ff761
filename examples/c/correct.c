/* A message is put into polynomials, their values are stored in rows, a quarter of the rows is lost and an eighth
 * is spoiled, and nobody knows which: the message is recovered, and the spoiled rows are named.
 *
 * COLS columns are polynomials of FEW coefficients; row i of ROWS rows holds their values at point i. */
#include "commonware_math.h"

#include <stdio.h>
#include <string.h>

enum { ROWS = 16, FEW = 8, COLS = 1 };

/* Says what a call answered, where it is not that it was done. */
static int is_refused(const char *call, uint32_t status) {
  char text[CWM_TEXT_SIZE];
  if (status == CWM_DONE) return 0;
  cwm_status_text(status, text, sizeof text);
  printf("%s: %s\n", call, text);
  return 1;
}

int main(void) {
  /* 56 bytes: 7 bytes a coefficient, so that each is below P */
  const char message[57] = "Two rows of twelve are spoiled, and the text comes back.";
  uint64_t cells[ROWS * COLS] = {0}, spoiled[ROWS * COLS];
  uint8_t filled[ROWS];
  char found[57] = {0};
  size_t wrong[ROWS / 2], count;

  for (int i = 0; i < FEW; i++) {
    for (int k = 0; k < 7; k++) cells[i] |= (uint64_t)(uint8_t)message[7 * i + k] << (8 * k);
  }
  if (is_refused("evaluate", cwm_evaluate(cells, ROWS * COLS, COLS))) return 1;

  /* rows 0, 4, 8 and 12 are lost, and rows 5 and 10 are spoiled */
  for (int i = 0; i < ROWS; i++) filled[i] = i % 4 != 0;
  cells[5] ^= 1;
  cells[10] = 0;
  memcpy(spoiled, cells, sizeof cells);
  if (is_refused("correct", cwm_correct(cells, ROWS * COLS, COLS, filled, ROWS, FEW, wrong, ROWS / 2, &count))) return 1;

  for (int i = 0; i < FEW; i++) {
    for (int k = 0; k < 7; k++) found[7 * i + k] = (char)(cells[i] >> (8 * k));
  }
  printf("%s\n", found);
  for (size_t i = 0; i < count; i++) printf("row %zu was wrong\n", wrong[i]);

  /* a third spoiled row is one too many: it is refused, and nothing is written */
  spoiled[7] = 0;
  memcpy(cells, spoiled, sizeof cells);
  is_refused("correct", cwm_correct(cells, ROWS * COLS, COLS, filled, ROWS, FEW, wrong, ROWS / 2, &count));
  printf("kept: %s\n", memcmp(cells, spoiled, sizeof cells) == 0 ? "yes" : "no");

  /* values of 2 + 3 X at any points, the fourth of them wrong */
  uint64_t points[6] = {1, 2, 3, 5, 8, 13}, values[6] = {5, 8, 11, 0, 26, 41}, coefficients[2];
  if (is_refused("decode", cwm_decode(points, 6, values, 6, coefficients, 2, wrong, ROWS / 2, &count))) return 1;
  printf("%llu + %llu X, wrong: %zu, at place %zu\n", (unsigned long long)coefficients[0], (unsigned long long)coefficients[1], count, wrong[0]);
  points[5] = 1;
  is_refused("decode", cwm_decode(points, 6, values, 6, coefficients, 2, wrong, ROWS / 2, &count));
  return 0;
}
