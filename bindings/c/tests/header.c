/*
 * What tuilarder.h declares, as a caller sees it: the figures of documents 01 and 02 as literals, and the type of every member and function. It is
 * only compiled. The header is taken in twice, as a program may.
 */
#include "tuilarder.h"
#include "tuilarder.h"

#define IS(constant, literal) _Static_assert((constant) == (literal), #constant)
#define HAS_TYPE(expression, type) _Static_assert(_Generic((expression), type: 1, default: 0), #expression)

/* "1 for today's and 2 for this one"; "p = 2013265921 = 15 × 2^27 + 1", "2130706433 = 2^31 − 2^24 + 1" */
IS(TUILARDER_BABY_BEAR, 1);
IS(TUILARDER_KOALA_BEAR, 2);
IS(TUILARDER_BABY_BEAR_PRIME, 2013265921);
IS(TUILARDER_KOALA_BEAR_PRIME, 2130706433);
/* "1 for today's string", and "form 2" */
IS(TUILARDER_FORM_1, 1);
IS(TUILARDER_FORM_2, 2);
/* "rate 8, capacity 16, width 24"; "744 places in either field" */
IS(TUILARDER_RATE, 8);
IS(TUILARDER_CAPACITY, 16);
IS(TUILARDER_WIDTH, 24);
IS(TUILARDER_MAX_ROUND_CONSTANTS, 744);
/* "A word has its top bit set for ABSORB"; "limits one declared call to 16,777,216 elements"; the longest pattern, separator and tag string; FIPS
   202's 256 bits */
IS(TUILARDER_ABSORB_BIT, 2147483648);
IS(TUILARDER_MAX_CALL, 16777216);
IS(TUILARDER_MAX_WORDS, 64);
IS(TUILARDER_MAX_SEPARATOR, 256);
IS(TUILARDER_MAX_TAG_STRING, 516);
IS(TUILARDER_DIGEST_LENGTH, 32);
/* "ten a row", "at most 128 rows" */
IS(TUILARDER_OWNER_ROW_BYTES, 10);
IS(TUILARDER_MAX_OWNER_ROWS, 128);
/* "A key of 8 elements and a nonce of 8", "8 elements are squeezed as the mark", "1 to 31 blocks" */
IS(TUILARDER_KEY_LENGTH, 8);
IS(TUILARDER_NONCE_LENGTH, 8);
IS(TUILARDER_MARK_LENGTH, 8);
IS(TUILARDER_MAX_NOTE_BLOCKS, 31);
/* version 3, and a record of 96 numbers of four bytes and a number of eight */
IS(TUILARDER_LAYOUT, 3 * 4294967296 + 96 * 4 + 8);
HAS_TYPE(TUILARDER_LAYOUT, uint64_t);
/* these are compared with and put into words, elements, field and form numbers, so they are unsigned as those are */
HAS_TYPE(TUILARDER_BABY_BEAR, uint32_t);
HAS_TYPE(TUILARDER_KOALA_BEAR, uint32_t);
HAS_TYPE(TUILARDER_FORM_1, uint32_t);
HAS_TYPE(TUILARDER_FORM_2, uint32_t);
HAS_TYPE(TUILARDER_BABY_BEAR_PRIME, uint32_t);
HAS_TYPE(TUILARDER_KOALA_BEAR_PRIME, uint32_t);
HAS_TYPE(TUILARDER_ABSORB_BIT, uint32_t);
HAS_TYPE(TUILARDER_MAX_CALL, uint32_t);

/* "Calls turned away", and the numbers that document 02 adds to them */
IS(TUILARDER_ACCEPTED, 0);
IS(TUILARDER_WORD_COUNT_OUT_OF_RANGE, 1);
IS(TUILARDER_WORD_LENGTH_ZERO, 2);
IS(TUILARDER_FIRST_WORD_SQUEEZE, 3);
IS(TUILARDER_LAST_WORD_ABSORB, 4);
IS(TUILARDER_MERGED_LENGTH_TOO_LONG, 5);
IS(TUILARDER_SEPARATOR_TOO_LONG, 6);
IS(TUILARDER_RECORD_NOT_OPEN, 7);
IS(TUILARDER_RECORD_NOT_SOUND, 8);
IS(TUILARDER_CALL_NOT_IN_PATTERN, 9);
IS(TUILARDER_ELEMENT_NOT_REDUCED, 10);
IS(TUILARDER_PATTERN_NOT_DONE, 11);
IS(TUILARDER_BUFFER_TOO_SHORT, 12);
IS(TUILARDER_NOT_TAG_STRING, 13);
IS(TUILARDER_OWNERS_ROW_INVALID, 15);
IS(TUILARDER_OWNERS_GAP, 16);
IS(TUILARDER_SEPARATOR_TOO_SHORT, 17);
IS(TUILARDER_FIELD_UNKNOWN, 18);
IS(TUILARDER_CALL_TOO_LONG, 19);
IS(TUILARDER_SEAL_LENGTH_INVALID, 20);
IS(TUILARDER_MARK_DIFFERS, 21);
IS(TUILARDER_FORM_UNKNOWN, 22);

#define RECORD ((struct tuilarder_session *)0)
HAS_TYPE(RECORD->status, uint32_t);
HAS_TYPE(RECORD->field, uint32_t);
HAS_TYPE(RECORD->form, uint32_t);
HAS_TYPE(&RECORD->state, uint32_t (*)[24]);
HAS_TYPE(&RECORD->words, uint32_t (*)[64]);
HAS_TYPE(RECORD->count, uint32_t);
HAS_TYPE(RECORD->phase, uint32_t);
HAS_TYPE(RECORD->done, uint32_t);
HAS_TYPE(RECORD->absorb_position, uint32_t);
HAS_TYPE(RECORD->squeeze_position, uint32_t);
HAS_TYPE(RECORD->permutations, uint64_t);

/* what is only read is const */
typedef struct tuilarder_session record;
HAS_TYPE(&tuilarder_start, uint32_t (*)(record *, uint32_t, uint32_t, const uint32_t *, size_t, const uint8_t *, size_t));
HAS_TYPE(&tuilarder_absorb, uint32_t (*)(record *, const uint32_t *, size_t));
HAS_TYPE(&tuilarder_squeeze, uint32_t (*)(record *, uint32_t *, size_t));
HAS_TYPE(&tuilarder_finish, uint32_t (*)(record *));
HAS_TYPE(&tuilarder_write_tag,
         uint32_t (*)(uint32_t, const uint32_t *, size_t, const uint8_t *, size_t, uint8_t *, size_t, size_t *));
HAS_TYPE(&tuilarder_read_tag, uint32_t (*)(uint32_t, const uint8_t *, size_t, size_t, uint32_t *, size_t *, size_t *, size_t *));
HAS_TYPE(&tuilarder_cut, uint32_t (*)(const uint32_t *, size_t, uint32_t *, size_t *));
HAS_TYPE(&tuilarder_permute, uint32_t (*)(uint32_t, uint32_t *));
HAS_TYPE(&tuilarder_generate, uint32_t (*)(uint32_t, uint32_t *, size_t *));
HAS_TYPE(&tuilarder_layout_3, uint64_t (*)(void));
HAS_TYPE(&tuilarder_sha3_256, void (*)(const uint8_t *, size_t, uint8_t *));
HAS_TYPE(&tuilarder_check_owners, uint32_t (*)(const uint8_t *, size_t, uint32_t *));
HAS_TYPE(&tuilarder_owner, uint32_t (*)(const uint8_t *, size_t, const uint8_t *, size_t, uint32_t *));
typedef uint32_t of_notes(uint32_t, const uint32_t *, size_t, const uint32_t *, size_t, const uint8_t *, size_t, const uint32_t *, size_t,
                          const uint32_t *, size_t, uint32_t *, size_t);
HAS_TYPE(&tuilarder_seal, of_notes *);
HAS_TYPE(&tuilarder_open, of_notes *);

/* In the types above an array is a pointer, whatever its size. So these are declared again with their sizes as
   literals: gcc's -Warray-parameter, of -Wall, compares the two. */
uint32_t tuilarder_read_tag(uint32_t, const uint8_t *, size_t, size_t, uint32_t[64], size_t *, size_t *, size_t *);
uint32_t tuilarder_cut(const uint32_t *, size_t, uint32_t[64], size_t *);
uint32_t tuilarder_permute(uint32_t, uint32_t[24]);
uint32_t tuilarder_generate(uint32_t, uint32_t[744], size_t *);
void tuilarder_sha3_256(const uint8_t *, size_t, uint8_t[32]);

/* macros that only the header itself needs */
#if defined TUILARDER_ANSWER || defined TUILARDER_ASSERT || defined TUILARDER_MEMBER_AT
#error "tuilarder.h leaves a macro of its own behind"
#endif
