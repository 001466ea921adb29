/* Completes a sheet, and asks whether two journeys are the same fare. From the repository's root:
     tools/build
     cc -Iinclude examples/same_fare.c target/staticlib/libgrettalune.a -o target/same_fare
     target/same_fare examples/either-zone.sheet cac aca */
#include "grettalune.h"
#include <stdio.h>
#include <string.h>

/* One byte more than the largest sheet: a longer file is not cut to a sheet, but refused. */
static uint8_t sheet[GRETTALUNE_SHEET_MOST + 1], table[GRETTALUNE_TABLE_ROOM], work[GRETTALUNE_WORK_ROOM];

static int refused(const char *what, grettalune_answer x) {
  if (x.refusal) fprintf(stderr, "%s: refused %u at %u, see docs/REFUSALS.md\n", what, x.refusal, x.place);
  return x.refusal != 0;
}

int main(int argc, char **argv) {
  FILE *file = argc == 4 ? fopen(argv[1], "rb") : NULL;
  if (!file) return fprintf(stderr, "usage: same_fare SHEET WORD WORD\n"), 2;
  size_t length = fread(sheet, 1, sizeof sheet, file);
  fclose(file);
  grettalune_answer made = grettalune_complete(sheet, length, table, sizeof table, work, sizeof work);
  if (refused("completion", made)) return 1;
  size_t u = strlen(argv[2]), v = strlen(argv[3]);
  for (size_t i = 0; i < u; i++) argv[2][i] -= 'a';
  for (size_t i = 0; i < v; i++) argv[3][i] -= 'a';
  grettalune_answer same = grettalune_same(table, made.a, (uint8_t *)argv[2], u, (uint8_t *)argv[3], v, 1000);
  if (refused("question", same)) return 1;
  puts(same.a ? "the same fare" : "a different fare");
  return 0;
}
