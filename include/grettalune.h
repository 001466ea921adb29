/* Grettalune: comparing words, the replacement due, one replacement, normal words, critical pairs, completing a sheet to a table,
   checking a table against a sheet, yes or no to the same fare, listing a table. The functions are proved to answer as their
   definitions say; this page puts that into words.

   A slice is a pointer and its number of elements, which can all be read, or in an output and the work buffer written; the pointer
   is not null, also where the length is 0. `rules` is aligned as its type; pointers to bytes need no alignment. Inputs may overlap each
   other. Outputs and the work buffer may overlap nothing: neither each other nor what is read. Within what this paragraph asks of
   pointers, every function takes every input.

   No function keeps state or allocates, so calls may run side by side on different buffers; they may share what they only read.

   A word is its letters, one byte each, 0 to n-1. Sheets and tables are files in the layout that docs/FORMAT.md takes apart. After a
   refusal an output has the bytes it had; after an answer only the bytes named here are new. */
#ifndef GRETTALUNE_H
#define GRETTALUNE_H

#include <stddef.h>
#include <stdint.h>

#ifdef __cplusplus
extern "C" {
#endif

/* Why a call was refused. P is the answer's place: the lowest line or the first equation at fault, of a critical pair its first line; 0
   where no P is named. docs/REFUSALS.md has for each the calls that give it, an input that gets it, and what to do about it. */
enum grettalune_refusal {
  GRETTALUNE_ANSWERED = 0,         /* the call was not refused */
  GRETTALUNE_FILE_BROKEN = 1,      /* a file is not in the layout or of another kind; or order, letters or lent rules out of range */
  GRETTALUNE_HEADERS_DIFFER = 2,   /* table and sheet differ in order, letters or number of equations */
  GRETTALUNE_ROOM_SHORT = 3,       /* an output or the work buffer is below its size */
  GRETTALUNE_WORD_BROKEN = 4,      /* a word has over 64 letters or a letter that is none; or a searched word over 128 letters */
  GRETTALUNE_ALLOWANCE_USED = 5,   /* a normal word takes more replacements than are allowed */
  GRETTALUNE_WORD_LONG = 6,        /* a word would pass 128 letters on the way to its normal word */
  GRETTALUNE_SIDE_LONG = 7,        /* a side of a new line would pass 32 letters */
  GRETTALUNE_LINES_FULL = 8,       /* a line more than 256 would be made */
  GRETTALUNE_LINEAGE_FULL = 9,     /* the lineages of all lines would pass 8,192 steps */
  GRETTALUNE_WAITING_FULL = 10,    /* an entry more than 2,048 would wait */
  GRETTALUNE_NEITHER_GREATER = 11, /* neither of two different words is greater */
  GRETTALUNE_CHAIN_BROKEN = 12,    /* the chain of line P does not lead from its left to its right word */
  GRETTALUNE_NOT_FALLING = 13,     /* the left word of line P is not greater than its right word */
  GRETTALUNE_NOT_REDUCED = 14,     /* the left word of line P holds the left word of another standing line */
  GRETTALUNE_EQUATION_OPEN = 15,   /* the sides of equation P have different normal words */
  GRETTALUNE_PAIR_OPEN = 16        /* the reducts of a critical pair of line P have different normal words */
};

/* The answer of every call. */
typedef struct {
  uint32_t refusal;    /* 0: answered; else a number of the list above */
  uint32_t place;      /* what goes with it, else 0 */
  uint32_t a, b, c, d; /* the answer's values; 0 in a refusal, and where a call has no such value */
} grettalune_answer;

/* A standing rule as it is lent for the search: its left letters start at offset in the words area, its right letters follow. */
typedef struct {
  uint16_t offset;
  uint8_t left, right; /* lengths, 0 to 32 */
  uint16_t line;
} grettalune_rule;

/* The sizes of the outputs, and of the work buffer. */
#define GRETTALUNE_WORD_ROOM 128
#define GRETTALUNE_PAIR_ROOM 192
#define GRETTALUNE_TABLE_ROOM 51216 /* the largest table too */
#define GRETTALUNE_WORK_ROOM 65536
#define GRETTALUNE_TEXT_ROOM 18967 /* a bound: a title of 23 bytes and 256 lines of at most 74 */

/* The largest sheet. A longer file is none, and is refused as 1. */
#define GRETTALUNE_SHEET_MOST 4368

/* Compares two words in an order (0 shortlex, 1 kachinuki) over 1 to 32 letters.
   a: 0 the first is less, 1 equal, 2 greater. Refusals in turn: 1, 4 (first word), 4 (second word). */
grettalune_answer grettalune_compare(uint16_t order, uint16_t letters, const uint8_t *u, size_t u_length, const uint8_t *v,
                                     size_t v_length);

/* The replacement due to lent rules: the earliest place where a left word stands, and there the lowest line. Letters are compared as
   bytes, without n. rules_length is the number of rules, not of bytes.
   a: 1 found, b its place, c its line; or all 0. Refusals in turn: 1 a side over 32 letters or outside the area, or line numbers that do
   not rise; 4 a word over 128 letters. */
grettalune_answer grettalune_search(const grettalune_rule *rules, size_t rules_length, const uint8_t *area, size_t area_length,
                                    const uint8_t *word, size_t word_length);

/* One replacement: at the earliest place where a standing line's left word stands, by the lowest such line.
   out: 128 bytes or more; the new word goes to its start. a: its length; b: 1, or 0 where the word is irreducible and is
   written as it is. Refusals in turn: 3, 1, 4. */
grettalune_answer grettalune_one(const uint8_t *table, size_t table_length, const uint8_t *word, size_t word_length, uint8_t *out,
                                 size_t out_length);

/* The normal word, by at most allowance replacements.
   out: 128 bytes or more; the normal word goes to its start. a: its length; b: the number of replacements.
   Refusals in turn: 3, 1, 4; then at each replacement 5, 6. */
grettalune_answer grettalune_normal(const uint8_t *table, size_t table_length, const uint8_t *word, size_t word_length,
                                    uint16_t allowance, uint8_t *out, size_t out_length);

/* The critical pair of the lines n and m, m's left word laid at a place of n's.
   out: 192 bytes or more; the peak goes to 0, the first reduct to 64, the second to 128. a, b, c: their lengths; all 0 and
   nothing written where a line is absent or deleted, the place does not count or the words disagree. Refusals in turn: 3, 1. */
grettalune_answer grettalune_pair(const uint8_t *table, size_t table_length, uint32_t n, uint32_t m, uint32_t place, uint8_t *out,
                                  size_t out_length);

/* Completes a sheet to a table that the check accepts for it.
   out: 51,216 bytes or more; the table goes to its start. a: its length. work: 65,536 bytes or more, with any bytes in them; after
   refusal 3 they are as they were, after any other answer its first 65,536 are zero and the rest as they were. Refusals in turn: 3, 1;
   then, turn by turn, 5 or 6 of the first word, 5 or 6 of the second, 11, 7, 8, 9, 10; at the end the closing check's refusal. */
grettalune_answer grettalune_complete(const uint8_t *sheet, size_t sheet_length, uint8_t *out, size_t out_length, uint8_t *work,
                                      size_t work_length);

/* Checks a table against a sheet: the six conditions in their order. All values are 0 where the table is accepted.
   Refusals in turn: 1 (sheet), 1 (table), 2, 12, 13, 14, then 5, 6 or 15 by equations, then 5, 6 or 16 by pairs. */
grettalune_answer grettalune_check(const uint8_t *sheet, size_t sheet_length, const uint8_t *table, size_t table_length);

/* Yes or no to two words being the same fare: to their normal words being equal, the allowance being each word's own.
   a: 1 the same, 0 different. Refusals in turn: 1, 4 (first word), 4 (second), 5 or 6 (first), 5 or 6 (second). A refusal is
   no answer: it does not say "different". */
grettalune_answer grettalune_same(const uint8_t *table, size_t table_length, const uint8_t *u, size_t u_length, const uint8_t *v,
                                  size_t v_length, uint16_t allowance);

/* A table as text: `ok R rules L lines`, then each standing line as number, colon, left, arrow, right, letters a to z and then A to
   F, the empty word as a hyphen, each line ended.
   out: 18,967 bytes or more; the text goes to its start, with no zero byte behind it. a: its length. Refusals in turn: 3, 1. */
grettalune_answer grettalune_list(const uint8_t *table, size_t table_length, uint8_t *out, size_t out_length);

#ifdef __cplusplus
}
#endif

#endif
