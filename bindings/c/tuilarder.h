/*
 * Tuilarder, the challenge sponge: SAFE sessions over the field BabyBear or KoalaBear with Poseidon and SHA3-256. C11 or C++11, x86-64 Linux.
 *
 *     const uint32_t words[2] = {TUILARDER_ABSORB_BIT | 8, 1};          ABSORB 8, then SQUEEZE 1
 *     struct tuilarder_session session;
 *     if (tuilarder_start(&session, TUILARDER_BABY_BEAR, TUILARDER_FORM_2, words, 2, separator, separator_length) != TUILARDER_ACCEPTED
 *         || tuilarder_absorb(&session, elements, 8) != TUILARDER_ACCEPTED
 *         || tuilarder_squeeze(&session, &challenge, 1) != TUILARDER_ACCEPTED
 *         || tuilarder_finish(&session) != TUILARDER_ACCEPTED)
 *         return 0;                                                     turned away: there is no challenge
 *
 * EVERY PROTOCOL OF A VERIFIER NEEDS A SEPARATOR OF ITS OWN, AND ALL OF THEM ONE FORM: FORM 2, OR FORM 1 WITH SEPARATORS OF ONE LENGTH. Two
 * protocols with one separator and one merged pattern have the same tag string (calls of 3 and 3 elements merge to one of 6). In form 1, where
 * separators differ in length, other patterns can have it too; in form 2 none has, whatever the lengths are. Between the forms nothing is said. Two
 * protocols of one tag string, in one field, get the same challenges for the same messages. docs/GUIDE.md shows both. The tag string says neither
 * field nor form.
 *
 * What a list, a string or a record holds is free: the functions take every content, and answer with a number where they turn a call away.
 * What the functions cannot look at is the caller's duty:
 *
 * - A pointer is aligned for its type and valid: a list's for as many items as the length after it says, every other one for its object.
 *   With length 0 a list's pointer may have any value, NULL among them: nothing is read or written through it. No other one may be NULL.
 * - What a function writes (the record, the state, constants and count of tuilarder_generate, out, written, words, count, separator_start and
 *   separator_count of tuilarder_read_tag, calls and count of tuilarder_cut, place, value) overlaps nothing else that the call was lent. Nobody else
 *   reads or writes that, and nobody writes what the function reads, until the call returns.
 *
 * What a function only writes need not be set before. The library has no state of its own, so distinct records may be used by distinct
 * threads at once. The time that a call takes depends on what it is lent, and copies of a record may stay behind on the stack: nothing is
 * claimed about secrecy. The library needs memcpy and memset, and nothing else.
 */
#ifndef TUILARDER_H
#define TUILARDER_H

#include <stddef.h>
#include <stdint.h>

#ifdef __cplusplus
extern "C" {
#endif

/* An answer has to be looked at: what a refused call was to write is not there. */
#ifdef __GNUC__
#define TUILARDER_ANSWER __attribute__((warn_unused_result)) uint32_t
#else
#define TUILARDER_ANSWER uint32_t
#endif

/*
 * The numbers of the fields, and their primes. Elements of a field are the numbers below its prime. Here p is the prime of the field that the
 * call names, or else the record.
 */
#define TUILARDER_BABY_BEAR 1u
#define TUILARDER_BABY_BEAR_PRIME 2013265921u
#define TUILARDER_KOALA_BEAR 2u
#define TUILARDER_KOALA_BEAR_PRIME 2130706433u

/*
 * The numbers of the forms of a tag string. In form 1 it is the merged words, four bytes each, highest first, then the separator, and does not say
 * where the separator begins. In form 2 the separator's length stands behind that, as four bytes, highest first: take form 2 where separators may
 * differ in length.
 */
#define TUILARDER_FORM_1 1u
#define TUILARDER_FORM_2 2u

/* The state's outer elements, which are absorbed into and squeezed from; its inner elements; and all of them. */
#define TUILARDER_RATE 8
#define TUILARDER_CAPACITY 16
#define TUILARDER_WIDTH 24

/* The most round constants that a field has: KoalaBear's. BabyBear has 696. */
#define TUILARDER_MAX_ROUND_CONSTANTS 744

/* A word is a length, with this bit set for ABSORB and clear for SQUEEZE. */
#define TUILARDER_ABSORB_BIT 0x80000000u

/* The longest call that a pattern declares, in elements. Calls of one kind that follow each other are added together, and may be longer then. */
#define TUILARDER_MAX_CALL 16777216u

/* The longest pattern in words, and the longest separator in bytes. The longest tag string, of form 2, has 4 * 64 + 256 + 4 bytes. */
#define TUILARDER_MAX_WORDS 64
#define TUILARDER_MAX_SEPARATOR 256
#define TUILARDER_MAX_TAG_STRING 516

/* The bytes of a SHA3-256 digest. */
#define TUILARDER_DIGEST_LENGTH 32

/* The bytes of a row of a table of owners, and the most rows that a table has. */
#define TUILARDER_OWNER_ROW_BYTES 10
#define TUILARDER_MAX_OWNER_ROWS 128

/* The elements of a sealed note's key, of its nonce and of its mark, and the most blocks of a note. */
#define TUILARDER_KEY_LENGTH 8
#define TUILARDER_NONCE_LENGTH 8
#define TUILARDER_MARK_LENGTH 8
#define TUILARDER_MAX_NOTE_BLOCKS 31

/*
 * The bytes of stack that a call of each function takes at most, its own frame and all below it. They are measured, on x86-64 and with the compiler
 * that builds the library, over lists of up to 100,000 items and calls that are accepted and refused (bindings/c/tests/stack.c). No proof bounds
 * them. In a program that is linked lazily the dynamic linker can take some 3 KB more, where the library first calls memcpy and memset.
 */
#define TUILARDER_STACK_LAYOUT_3 256
#define TUILARDER_STACK_START 3072
#define TUILARDER_STACK_ABSORB 30720
#define TUILARDER_STACK_SQUEEZE 30720
#define TUILARDER_STACK_FINISH 256
#define TUILARDER_STACK_WRITE_TAG 1536
#define TUILARDER_STACK_READ_TAG 768
#define TUILARDER_STACK_CUT 1024
#define TUILARDER_STACK_PERMUTE 28672
#define TUILARDER_STACK_GENERATE 8192
#define TUILARDER_STACK_SHA3_256 1536
#define TUILARDER_STACK_CHECK_OWNERS 256
#define TUILARDER_STACK_OWNER 256
#define TUILARDER_STACK_SEAL 32768
#define TUILARDER_STACK_OPEN 32768

/* The numbers that the functions answer with. */
enum tuilarder_number {
    /* the call is accepted */
    TUILARDER_ACCEPTED = 0,
    /* pattern of 0 or over 64 words */
    TUILARDER_WORD_COUNT_OUT_OF_RANGE = 1,
    /* a word of length 0 */
    TUILARDER_WORD_LENGTH_ZERO = 2,
    /* first word is SQUEEZE */
    TUILARDER_FIRST_WORD_SQUEEZE = 3,
    /* last word is ABSORB (unused) */
    TUILARDER_LAST_WORD_ABSORB = 4,
    /* merged length above 2147483647 (unused) */
    TUILARDER_MERGED_LENGTH_TOO_LONG = 5,
    /* separator over 256 bytes */
    TUILARDER_SEPARATOR_TOO_LONG = 6,
    /* record not open */
    TUILARDER_RECORD_NOT_OPEN = 7,
    /* open record not sound */
    TUILARDER_RECORD_NOT_SOUND = 8,
    /* wrong kind, past the phase's end, or after the last phase */
    TUILARDER_CALL_NOT_IN_PATTERN = 9,
    /* an element of p or more */
    TUILARDER_ELEMENT_NOT_REDUCED = 10,
    /* FINISH before the last phase's end */
    TUILARDER_PATTERN_NOT_DONE = 11,
    /* lent buffer shorter than the tag string */
    TUILARDER_BUFFER_TOO_SHORT = 12,
    /* no tag string of that separator length */
    TUILARDER_NOT_TAG_STRING = 13,
    /* a row whose first is above its last or not above the previous row's last, a row 129 or a row cut short */
    TUILARDER_OWNERS_ROW_INVALID = 15,
    /* a number that no row holds */
    TUILARDER_OWNERS_GAP = 16,
    /* the separator asked about is under four bytes */
    TUILARDER_SEPARATOR_TOO_SHORT = 17,
    /* field number neither 1 nor 2 */
    TUILARDER_FIELD_UNKNOWN = 18,
    /* a declared call above 16,777,216 elements */
    TUILARDER_CALL_TOO_LONG = 19,
    /* no blocks or over 31, a block length of 0 or above 16,777,216, or any other lent list or buffer, key and nonce too, whose length isn't exactly what is needed */
    TUILARDER_SEAL_LENGTH_INVALID = 20,
    /* the mark differs */
    TUILARDER_MARK_DIFFERS = 21,
    /* form number neither 1 nor 2 */
    TUILARDER_FORM_UNKNOWN = 22
};

/*
 * The record of a session. Any contents may be handed over: a call looks at them before it uses them. Wiped means every member 0.
 * A copied record is a fork: each copy goes on by itself.
 */
struct tuilarder_session {
    /* 1 open, otherwise closed */
    uint32_t status;
    /* the number of the field that its elements are of */
    uint32_t field;
    /* the number of the form of its tag string */
    uint32_t form;
    /* the outer elements, then the inner ones */
    uint32_t state[TUILARDER_WIDTH];
    /* the merged words of the pattern, with unused ones 0 */
    uint32_t words[TUILARDER_MAX_WORDS];
    /* how many words are used */
    uint32_t count;
    /* the number of the word that is being done, from 0; count after the last */
    uint32_t phase;
    /* how many elements of it are done */
    uint32_t done;
    /* from 0 to 8 */
    uint32_t absorb_position;
    uint32_t squeeze_position;
    /* how many permutations the session has had */
    uint64_t permutations;
};

/* The library was compiled for this layout. */
#ifdef __cplusplus
#define TUILARDER_ASSERT(condition) static_assert(condition, #condition)
#else
#define TUILARDER_ASSERT(condition) _Static_assert(condition, #condition)
#endif
#define TUILARDER_MEMBER_AT(member, offset) TUILARDER_ASSERT(offsetof(struct tuilarder_session, member) == (offset))
TUILARDER_ASSERT(sizeof(struct tuilarder_session) == 392);
TUILARDER_MEMBER_AT(status, 0);
TUILARDER_MEMBER_AT(field, 4);
TUILARDER_MEMBER_AT(form, 8);
TUILARDER_MEMBER_AT(state, 12);
TUILARDER_MEMBER_AT(words, 108);
TUILARDER_MEMBER_AT(count, 364);
TUILARDER_MEMBER_AT(phase, 368);
TUILARDER_MEMBER_AT(done, 372);
TUILARDER_MEMBER_AT(absorb_position, 376);
TUILARDER_MEMBER_AT(squeeze_position, 380);
TUILARDER_MEMBER_AT(permutations, 384);
TUILARDER_ASSERT(sizeof(size_t) == 8 && sizeof(void *) == 8);
#undef TUILARDER_MEMBER_AT
#undef TUILARDER_ASSERT

/*
 * What the library was compiled for: the version of its functions and of the record from bit 32 on, and below that the bytes of a record. This
 * header is for TUILARDER_LAYOUT. A library of another version has no function of this name, so a program that compares the two links only
 * with one of this version.
 */
#define TUILARDER_LAYOUT (UINT64_C(3) << 32 | 392)
uint64_t tuilarder_layout_3(void);

/*
 * START: opens a session for a field, a form, a pattern and a separator in the record, whatever that held. Checks 18, 22, 1, 2, 19, 3 and 6, in
 * this order, whichever word is at fault. Refused, it leaves a wiped record. The last word may be of either kind; a last ABSORB bears on no element
 * that the session squeezes. The separator names the protocol: no two of a verifier have the same. All of them have one form, and in form 1
 * separators of one length.
 */
TUILARDER_ANSWER tuilarder_start(struct tuilarder_session *record, uint32_t field, uint32_t form, const uint32_t *words, size_t words_length,
                                 const uint8_t *separator, size_t separator_length);

/*
 * ABSORB: takes elements in. Checks 7 and 8; then accepts length 0, which changes nothing; then checks 9, then 10.
 * 9 wipes the record; 7, 8 and 10 leave it as it was.
 */
TUILARDER_ANSWER tuilarder_absorb(struct tuilarder_session *record, const uint32_t *elements, size_t length);

/*
 * SQUEEZE: fills out with elements. Checks 7 and 8; then accepts length 0, which changes nothing; then checks 9.
 * 9 wipes the record; 7 and 8 leave it as it was. Refused, it writes nothing to out.
 */
TUILARDER_ANSWER tuilarder_squeeze(struct tuilarder_session *record, uint32_t *out, size_t length);

/*
 * FINISH: ends a session whose pattern is done. Checks 7, 8, 11. Accepted, or refused with 11, it wipes the record; 7 and 8 leave it as
 * it was.
 */
TUILARDER_ANSWER tuilarder_finish(struct tuilarder_session *record);

/*
 * Writes the tag string of a pattern and a separator in a form, from out's start and only the string's bytes, and its length to written.
 * Checks 22, 1, 2, 19, 3, 6 and 12, in this order. Refused, it writes nothing to out, and 0 to written.
 */
TUILARDER_ANSWER tuilarder_write_tag(uint32_t form, const uint32_t *words, size_t words_length, const uint8_t *separator,
                                     size_t separator_length, uint8_t *out, size_t out_length, size_t *written);

/*
 * Reads a tag string of a form back: its merged words, with unused ones 0, and how many they are; and of its separator where in the string it begins,
 * and how many bytes it has. Checks 22, 6, then 13.
 *
 * - Form 1: the separator is the string's last part, of the length given, which 6 is of.
 * - Form 2: the separator is what stands before the string's last four bytes, as many bytes as those name. The length given is ignored. 6 is of the
 *   number in the last four bytes, and a string that is shorter than these gets 13.
 *
 * Refused, it gives 64 zero words, count 0, and as separator the empty part at the string's end. Merged words may be longer than a declared call:
 * tuilarder_cut makes words of them that START takes.
 */
TUILARDER_ANSWER tuilarder_read_tag(uint32_t form, const uint8_t *string, size_t length, size_t separator_length,
                                    uint32_t words[TUILARDER_MAX_WORDS], size_t *count, size_t *separator_start, size_t *separator_count);

/*
 * Cuts words into calls that a pattern may declare, in order: a word longer than TUILARDER_MAX_CALL becomes calls of that length and any rest,
 * of its kind; every other word stays, one of length 0 too. Gives the calls as words, with unused ones 0, and how many they are. They merge to
 * what the words merge to. Checks 1, and that only of too many calls. Refused, it gives 64 zero words and count 0; where the words are those
 * of a tag string, no pattern that START takes has it then. The list may have any length, and no words are no calls.
 */
TUILARDER_ANSWER tuilarder_cut(const uint32_t *words, size_t words_length, uint32_t calls[TUILARDER_MAX_WORDS], size_t *count);

/* One Poseidon permutation of a field in place. Checks 18, then 10. Refused, it leaves the state as it was. */
TUILARDER_ANSWER tuilarder_permute(uint32_t field, uint32_t state[TUILARDER_WIDTH]);

/*
 * The round constants of a field's permutation, made by Poseidon's generator, with 0 in the places left, and how many they are: 696 of
 * BabyBear, 744 of KoalaBear. Checks 18. Refused, it gives 744 zeros and count 0. No other function needs it.
 */
TUILARDER_ANSWER tuilarder_generate(uint32_t field, uint32_t constants[TUILARDER_MAX_ROUND_CONSTANTS], size_t *count);

/* The SHA3-256 digest of a string of bytes. It turns nothing away. */
void tuilarder_sha3_256(const uint8_t *data, size_t length, uint8_t out[TUILARDER_DIGEST_LENGTH]);

/*
 * Whether the rows of a table of owners are in rising order and hold every number of 32 bits exactly once. A row has ten bytes: the first and
 * the last number that it holds, of four bytes each, and its product line, of two, highest byte first; there are at most 128. Checks 15, then 16.
 * Writes to place the number of the first bad row, counted from 1, with 15; the least number that no row holds with 16; otherwise 0.
 */
TUILARDER_ANSWER tuilarder_check_owners(const uint8_t *table, size_t length, uint32_t *place);

/*
 * The product line that owns a separator: that of the row which holds the separator's number, its first four bytes, highest byte first.
 * Checks 15, 16, then 17; so each call looks at the whole table. A separator may be of any length above three. Accepted, it writes the product
 * line to value. Refused, value is no product line: with 15 and 16 it is what tuilarder_check_owners writes to place, and with 17 it is 0.
 */
TUILARDER_ANSWER tuilarder_owner(const uint8_t *table, size_t table_length, const uint8_t *separator, size_t separator_length,
                                 uint32_t *value);

/*
 * Seals a note (encryption that authenticates, SAFE's Algorithm 7): writes every cipher element, and then a mark of TUILARDER_MARK_LENGTH elements,
 * to out. lengths says how many elements each of the note's blocks has: 1 to TUILARDER_MAX_NOTE_BLOCKS blocks, of 1 to TUILARDER_MAX_CALL elements
 * each. plain has the blocks one behind the other. Key and nonce have TUILARDER_KEY_LENGTH and TUILARDER_NONCE_LENGTH elements, and out has
 * TUILARDER_MARK_LENGTH more than plain. Checks 18, 6, 20 and 10 (of key, nonce and plain), in this order. Refused, it writes nothing to out.
 *
 * A KEY AND A NONCE SERVE ONCE. Two notes that are sealed with the same field, key, nonce, separator and lengths have the same elements added to their
 * first block, and to each later block as long as all plain blocks before it are equal. So in these blocks the difference of two cipher elements is
 * that of the plain ones, up to and with the first block in which the notes differ: who sees both has it without the key. Lengths are not hidden.
 *
 * ALL SEPARATORS UNDER ONE KEY HAVE ONE LENGTH, for a note's tag string is of form 1. With lengths 3 and 8 and a separator S a note has the tag
 * string that length 3 has with the separator 8000000800000008 followed by S; who knows the second block of such a note has, without the key, one of
 * three elements that opens with that separator.
 *
 * OUT OVERLAPS NOTHING ELSE: a note is not sealed in place. No call is turned away for it. With out at plain the answer is 0, and each cipher
 * element is twice the one squeezed for it: nothing of the note is left, the list does not open, and it gives away what is added to a first block.
 * Where out begins further on inside plain the answer is 0, and another note is sealed. Where out lies over lengths, the process can end.
 * The stack keeps what it held of key, nonce, session and mark.
 */
TUILARDER_ANSWER tuilarder_seal(uint32_t field, const uint32_t *key, size_t key_length, const uint32_t *nonce, size_t nonce_length,
                                const uint8_t *separator, size_t separator_length, const uint32_t *lengths, size_t lengths_length,
                                const uint32_t *plain, size_t plain_length, uint32_t *out, size_t out_length);

/*
 * Opens a note, with the field, key, nonce, separator and lengths that it was sealed with. cipher is what sealing left in out, the mark behind the
 * cipher elements, and out gets the plain blocks: TUILARDER_MARK_LENGTH elements less. Checks 18, 6, 20, 10 (of key, nonce and cipher, the mark too)
 * and 21, in this order. With 21 every place of out holds 0: where the mark is not the note's, none of its contents is handed out. Refused with
 * another number, it writes nothing to out.
 *
 * OUT OVERLAPS NOTHING ELSE: a note is not opened in place. With out at cipher a good note gets 21, and its cipher elements are 0 then: the list
 * cannot be opened again. Where out lies over lengths, a good note can get 21, or the process can end.
 */
TUILARDER_ANSWER tuilarder_open(uint32_t field, const uint32_t *key, size_t key_length, const uint32_t *nonce, size_t nonce_length,
                                const uint8_t *separator, size_t separator_length, const uint32_t *lengths, size_t lengths_length,
                                const uint32_t *cipher, size_t cipher_length, uint32_t *out, size_t out_length);

#undef TUILARDER_ANSWER

#ifdef __cplusplus
}
#endif

#endif
