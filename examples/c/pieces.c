/* A file is cut into plain pieces, and parity pieces are added. Two pieces are lost, and made anew from the others.
 *
 * The first MIN pieces, one behind the other, are the file: any program reads them. All are gone through strip by strip, so memory
 * stays small however long the file is. Each strip is a block of its own, and its mask is kept. */
#include <commonware_math.h>

#include <stdio.h>
#include <string.h>

enum { MIN = 4, TOTAL = 6, LINES = 1999, LINE = 10, STRIP = 1024, MOST_STRIPS = 5 };

/* reads the next n bytes of a piece; zeros stand for what lies past its end */
static void take(FILE *piece, uint8_t *row, size_t n) {
  size_t there = fread(row, 1, n, piece);
  memset(row + there, 0, n - there);
}

int main(void) {
  static uint8_t rows[TOTAL * STRIP];
  uint32_t masks[MOST_STRIPS];
  FILE *pieces[TOTAL];
  size_t size, data, n;
  if (cwm_systematic_sizes(LINES * LINE, MIN, TOTAL, 0, &size, &data) != CWM_DONE) return 1;
  for (int i = 0; i < TOTAL; i++) {
    pieces[i] = tmpfile();
    if (pieces[i] == NULL) return 2;
  }

  /* the file is lines with a number each; a piece has `size` bytes, and the last one what is left */
  for (size_t i = 0; i < LINES; i++) {
    char line[LINE + 1];
    snprintf(line, sizeof line, "line %4zu\n", i);
    fwrite(line, 1, LINE, pieces[i * LINE / size]);
  }

  /* the parity pieces */
  for (int i = 0; i < MIN; i++) rewind(pieces[i]);
  for (size_t at = 0; at < size; at += n) {
    n = size - at < STRIP ? size - at : STRIP;
    for (int i = 0; i < MIN; i++) take(pieces[i], rows + i * n, n);
    uint32_t *mask = &masks[at / STRIP];
    if (cwm_systematic_encode(rows, MIN * n, MIN, TOTAL, rows + MIN * n, (TOTAL - MIN) * n, mask) != CWM_DONE) return 3;
    for (int i = MIN; i < TOTAL; i++) fwrite(rows + i * n, 1, n, pieces[i]);
  }

  /* pieces 3 and 5 are lost, and the others give them back */
  enum { LOST = 2 };
  const uint32_t left[MIN] = {0, 1, 2, 4}, lost[LOST] = {3, 5};
  for (int j = 0; j < LOST; j++) {
    fclose(pieces[lost[j]]);
    pieces[lost[j]] = tmpfile();
    if (pieces[lost[j]] == NULL) return 2;
  }
  for (int i = 0; i < MIN; i++) rewind(pieces[left[i]]);
  for (size_t at = 0; at < size; at += n) {
    n = size - at < STRIP ? size - at : STRIP;
    for (int i = 0; i < MIN; i++) take(pieces[left[i]], rows + i * n, n);
    if (cwm_systematic_rebuild(left, MIN, rows, MIN * n, MIN * n, MIN, TOTAL, masks[at / STRIP], lost, LOST, rows + MIN * n,
                               LOST * n) != CWM_DONE)
      return 4;
    for (int j = 0; j < LOST; j++) {
      /* zeros that fill the last data piece are not written */
      if (cwm_systematic_sizes(LINES * LINE, MIN, TOTAL, lost[j], &size, &data) != CWM_DONE) return 1;
      size_t end = lost[j] < MIN ? data : size;
      fwrite(rows + (MIN + j) * n, 1, end < at ? 0 : end - at < n ? end - at : n, pieces[lost[j]]);
    }
  }

  for (int i = 0; i < TOTAL; i++) {
    char first[LINE + 1] = "", byte;
    size_t bytes = 0;
    rewind(pieces[i]);
    if (i < MIN && fread(first, 1, LINE - 1, pieces[i]) == LINE - 1) bytes = LINE - 1;
    while (fread(&byte, 1, 1, pieces[i]) == 1) bytes++;
    printf("piece %d: %zu bytes%s%s\n", i, bytes, i < MIN ? ", from " : " of parity", first);
    fclose(pieces[i]);
  }
  return 0;
}
