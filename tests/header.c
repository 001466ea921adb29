/* The header against the archive, in C11 and in C++17: each of the nine functions once, with the answer it must give, their types and
   the structs', and the names of the refusals. It is a test, so it stands neither in examples/, which is for users, nor in include/,
   which goes on their search path. The gate compiles and runs it in both languages:
     cc -std=c11 -Wall -Wextra -pedantic -Werror -Iinclude tests/header.c target/staticlib/libgrettalune.a -o target/header
     target/header
   Outputs are full of FILL and one byte longer than what is lent: what is behind an answer must still be FILL. */
#include "grettalune.h"
#include <stdio.h>
#include <string.h>
#ifndef __cplusplus
#include <assert.h>
#include <stdalign.h>
#endif

static_assert(sizeof(grettalune_answer) == 24 && alignof(grettalune_answer) == 4, "six numbers of 32 bits");
static_assert(offsetof(grettalune_answer, refusal) == 0 && offsetof(grettalune_answer, place) == 4, "refusal, place");
static_assert(offsetof(grettalune_answer, a) == 8 && offsetof(grettalune_answer, b) == 12, "a, b");
static_assert(offsetof(grettalune_answer, c) == 16 && offsetof(grettalune_answer, d) == 20, "c, d");
static_assert(sizeof(grettalune_rule) == 6 && alignof(grettalune_rule) == 2, "six bytes");
static_assert(offsetof(grettalune_rule, offset) == 0 && offsetof(grettalune_rule, left) == 2, "offset, left");
static_assert(offsetof(grettalune_rule, right) == 3 && offsetof(grettalune_rule, line) == 4, "right, line");
static_assert(GRETTALUNE_SHEET_MOST == 16 + 64 * 4 + 64 * 64, "64 equations of 32 letters a side");
static_assert(GRETTALUNE_TABLE_ROOM == 16 + 256 * 8 + 8192 * 4 + 256 * 64, "256 lines of 32 letters a side, 8,192 steps");

/* Other programs link these types. Said once more, so that a header that says another is an error. */
typedef const uint8_t *bytes;
grettalune_answer grettalune_compare(uint16_t, uint16_t, bytes, size_t, bytes, size_t);
grettalune_answer grettalune_search(const grettalune_rule *, size_t, bytes, size_t, bytes, size_t);
grettalune_answer grettalune_one(bytes, size_t, bytes, size_t, uint8_t *, size_t);
grettalune_answer grettalune_normal(bytes, size_t, bytes, size_t, uint16_t, uint8_t *, size_t);
grettalune_answer grettalune_pair(bytes, size_t, uint32_t, uint32_t, uint32_t, uint8_t *, size_t);
grettalune_answer grettalune_complete(bytes, size_t, uint8_t *, size_t, uint8_t *, size_t);
grettalune_answer grettalune_check(bytes, size_t, bytes, size_t);
grettalune_answer grettalune_same(bytes, size_t, bytes, size_t, bytes, size_t, uint16_t);
grettalune_answer grettalune_list(bytes, size_t, uint8_t *, size_t);

#define FILL 0x55

/* ab = ba, shortlex, and its table, byte by byte in docs/FORMAT.md */
static const uint8_t sheet[] = {1, 0, 0, 0, 2, 0, 1, 0, 0, 0, 0, 0, 20, 0, 24, 0, 0, 0, 2, 2, 0, 1, 1, 0};
static const uint8_t table[] = {2, 0, 0, 0, 2, 0, 1, 0, 1, 0, 1, 0, 28, 0, 32, 0,
                                0, 0, 2, 2, 1, 0, 1, 0, 0, 0, 1, 0, 1, 0, 0, 1};
/* aba to the empty word: the line of that table has no critical pair */
static const uint8_t overlapping[] = {2, 0, 0, 0, 2, 0, 1, 0, 1, 0, 0, 0, 24, 0, 27, 0, 0, 0, 3, 0, 0, 0, 1, 0, 0, 1, 0};
static const uint8_t ab[] = {0, 1}, ba[] = {1, 0}, baa[] = {1, 0, 0}, bba[] = {1, 1, 0}, baab[] = {1, 0, 0, 1};

static int failed;

static void expect(const char *what, int holds) {
  if (!holds) failed = 1, fprintf(stderr, "the header: %s\n", what);
}

/* The call was answered by these values. */
static int answered(grettalune_answer x, uint32_t a, uint32_t b, uint32_t c) {
  return !x.refusal && !x.place && x.a == a && x.b == b && x.c == c && !x.d;
}

/* The call was refused, and has no values. */
static int refused(grettalune_answer x, enum grettalune_refusal why, uint32_t place) {
  return x.refusal == (uint32_t)why && x.place == place && !x.a && !x.b && !x.c && !x.d;
}

/* All bytes from one place up to another are this one. */
static int all(bytes buffer, size_t from, size_t to, uint8_t byte) {
  while (from < to && buffer[from] == byte) from++;
  return from >= to;
}

static void words(void) {
  static uint8_t out[GRETTALUNE_WORD_ROOM + 1];
  const size_t room = GRETTALUNE_WORD_ROOM;
  const grettalune_rule rules[] = {{2, 2, 0, 3}, {0, 2, 2, 7}}; /* over b a a b: line 3, ab to -, and line 7, ba to ab */
  expect("compare", answered(grettalune_compare(0, 2, ba, 2, ab, 2), 2, 0, 0));
  expect("search", answered(grettalune_search(rules, 2, baab, 4, bba, 3), 1, 1, 7));
  memset(out, FILL, sizeof out);
  expect("one", answered(grettalune_one(table, sizeof table, baa, 3, out, room), 3, 1, 0));
  expect("one's word", !memcmp(out, "\0\1\0", 3) && all(out, 3, sizeof out, FILL));
  memset(out, FILL, sizeof out);
  expect("normal", answered(grettalune_normal(table, sizeof table, baa, 3, 2, out, room), 3, 2, 0));
  expect("normal's word", !memcmp(out, "\0\0\1", 3) && all(out, 3, sizeof out, FILL));
  expect("same", answered(grettalune_same(table, sizeof table, ba, 2, ab, 2, 1), 1, 0, 0));
}

static void pairs(void) {
  static uint8_t out[GRETTALUNE_PAIR_ROOM + 1];
  memset(out, FILL, sizeof out);
  grettalune_answer x = grettalune_pair(overlapping, sizeof overlapping, 0, 0, 2, out, GRETTALUNE_PAIR_ROOM);
  expect("pair", answered(x, 5, 2, 2));
  expect("pair's peak", !memcmp(out, "\0\1\0\1\0", 5) && all(out, 5, 64, FILL));
  expect("pair's first reduct", !memcmp(out + 64, ba, 2) && all(out, 66, 128, FILL));
  expect("pair's second reduct", !memcmp(out + 128, ab, 2) && all(out, 130, sizeof out, FILL));
}

static void tables(void) {
  static uint8_t out[GRETTALUNE_TABLE_ROOM + 1], work[GRETTALUNE_WORK_ROOM + 1], text[GRETTALUNE_TEXT_ROOM + 1];
  const char *listing = "ok 1 rules 1 lines\n0: ba -> ab\n";
  memset(out, FILL, sizeof out), memset(work, FILL, sizeof work), memset(text, FILL, sizeof text);
  grettalune_answer x = grettalune_complete(sheet, sizeof sheet, out, GRETTALUNE_TABLE_ROOM, work, GRETTALUNE_WORK_ROOM);
  expect("complete", answered(x, sizeof table, 0, 0));
  expect("complete's table", !memcmp(out, table, sizeof table) && all(out, sizeof table, sizeof out, FILL));
  expect("complete's work buffer", all(work, 0, GRETTALUNE_WORK_ROOM, 0) && work[GRETTALUNE_WORK_ROOM] == FILL);
  expect("check", answered(grettalune_check(sheet, sizeof sheet, table, sizeof table), 0, 0, 0));
  x = grettalune_list(table, sizeof table, text, GRETTALUNE_TEXT_ROOM);
  expect("list", answered(x, (uint32_t)strlen(listing), 0, 0));
  expect("list's text", !memcmp(text, listing, strlen(listing)) && all(text, strlen(listing), sizeof text, FILL));
}

/* A refusal each of the kinds that small inputs get, and their numbers: other programs know them. */
static void refusals(void) {
  static uint8_t out[GRETTALUNE_TABLE_ROOM], work[GRETTALUNE_WORK_ROOM], other[sizeof table];
  const enum grettalune_refusal all[] = {
      GRETTALUNE_ANSWERED,      GRETTALUNE_FILE_BROKEN,    GRETTALUNE_HEADERS_DIFFER,  GRETTALUNE_ROOM_SHORT,
      GRETTALUNE_WORD_BROKEN,   GRETTALUNE_ALLOWANCE_USED, GRETTALUNE_WORD_LONG,       GRETTALUNE_SIDE_LONG,
      GRETTALUNE_LINES_FULL,    GRETTALUNE_LINEAGE_FULL,   GRETTALUNE_WAITING_FULL,    GRETTALUNE_NEITHER_GREATER,
      GRETTALUNE_CHAIN_BROKEN,  GRETTALUNE_NOT_FALLING,    GRETTALUNE_NOT_REDUCED,     GRETTALUNE_EQUATION_OPEN,
      GRETTALUNE_PAIR_OPEN};
  for (size_t k = 0; k < sizeof all / sizeof all[0]; k++) expect("the refusals' numbers", (size_t)all[k] == k);
  expect("1", refused(grettalune_compare(2, 2, ba, 2, ab, 2), GRETTALUNE_FILE_BROKEN, 0));
  expect("3", refused(grettalune_one(table, sizeof table, ba, 2, out, 127), GRETTALUNE_ROOM_SHORT, 0));
  expect("3 again", refused(grettalune_complete(sheet, sizeof sheet, out, sizeof out, work, 65535), GRETTALUNE_ROOM_SHORT, 0));
  expect("4", refused(grettalune_compare(0, 1, ba, 2, ab, 2), GRETTALUNE_WORD_BROKEN, 0));
  expect("5", refused(grettalune_same(table, sizeof table, ba, 2, ab, 2, 0), GRETTALUNE_ALLOWANCE_USED, 0));
  memcpy(other, table, sizeof table);
  other[4] = 3; /* three letters */
  expect("2", refused(grettalune_check(sheet, sizeof sheet, other, sizeof other), GRETTALUNE_HEADERS_DIFFER, 0));
  other[4] = 2, other[26] = 0; /* the step the other way round */
  expect("12", refused(grettalune_check(sheet, sizeof sheet, other, sizeof other), GRETTALUNE_CHAIN_BROKEN, 0));
  other[26] = 1, other[22] = 0; /* the line deleted */
  expect("15", refused(grettalune_check(sheet, sizeof sheet, other, sizeof other), GRETTALUNE_EQUATION_OPEN, 0));
}

int main(void) {
  words();
  pairs();
  tables();
  refusals();
  return failed;
}
