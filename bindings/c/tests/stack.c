/*
 * How much stack each function takes, beside what tuilarder.h says of it. All runs on a stack of this program's own: it
 * is painted before each call, and what is no longer paint afterwards was used. The inputs are short and long, accepted
 * and refused with each number that a function checks. A figure is too low where a call takes more, and too high where
 * it is over twice what any call takes. Not for valgrind; and linked with -z now, so that no call waits for the linker.
 */
/* for pthread_attr_setstack */
#define _POSIX_C_SOURCE 200809L

#include "tuilarder.h"

#include "lent.h"

#include <pthread.h>

#define A TUILARDER_ABSORB_BIT
#define BABY_BEAR TUILARDER_BABY_BEAR
#define KOALA_BEAR TUILARDER_KOALA_BEAR
#define FORM_1 TUILARDER_FORM_1
#define FORM_2 TUILARDER_FORM_2
#define UNKNOWN 3
/* elements and bytes of the longest lists */
#define LONG 100000

/* ---- the stack */

#define ROOM (128 * 1024)
#define PAINT 0xa5
/* room for the frame of taken itself, which is not painted */
#define OWN 128

static _Alignas(4096) unsigned char stack[ROOM];

/* The bytes below this frame that a call uses. The frame of call is among them, and holds little but its arguments. */
__attribute__((noinline)) static size_t taken(void (*call)(void))
{
    unsigned char *top = __builtin_frame_address(0);
    /* volatile, since a compiler that sees the end of a local's life may leave out writing there */
    volatile unsigned char *end = top - OWN, *place;
    for (place = stack; place < end; place++)
        *place = PAINT;
    call();
    place = stack;
    while (place < end && *place == PAINT)
        place++;
    return (size_t)(top - place);
}

/* ---- the functions, with what they are lent */

static uint32_t answer;
static struct tuilarder_session record;
static uint32_t field, form, number, state[24], constants[744], words[65], calls[64], key[9], nonce[9], lengths[32];
static uint32_t elements[LONG + 9], out[LONG + 9];
static uint8_t bytes[LONG], separator[257], string[600], table[1300], digest[32];
static size_t length, words_length, separator_length, out_length, key_length = 8, nonce_length = 8, count, start, parts;

static void call_layout(void)
{
    answer = tuilarder_layout_3() != TUILARDER_LAYOUT;
}

static void call_start(void)
{
    answer = tuilarder_start(&record, field, form, words, words_length, separator, separator_length);
}

static void call_absorb(void)
{
    answer = tuilarder_absorb(&record, elements, length);
}

static void call_squeeze(void)
{
    answer = tuilarder_squeeze(&record, out, length);
}

static void call_finish(void)
{
    answer = tuilarder_finish(&record);
}

static void call_write_tag(void)
{
    answer = tuilarder_write_tag(form, words, words_length, separator, separator_length, string, out_length, &count);
}

static void call_read_tag(void)
{
    answer = tuilarder_read_tag(form, string, length, separator_length, calls, &count, &start, &parts);
}

static void call_cut(void)
{
    answer = tuilarder_cut(words, words_length, calls, &count);
}

static void call_permute(void)
{
    answer = tuilarder_permute(field, state);
}

static void call_generate(void)
{
    answer = tuilarder_generate(field, constants, &count);
}

static void call_sha3_256(void)
{
    tuilarder_sha3_256(bytes, length, digest);
    answer = 0;
}

static void call_check_owners(void)
{
    answer = tuilarder_check_owners(table, length, &number);
}

static void call_owner(void)
{
    answer = tuilarder_owner(table, length, separator, separator_length, &number);
}

static void call_seal(void)
{
    answer = tuilarder_seal(field, key, key_length, nonce, nonce_length, separator, separator_length, lengths, parts,
                            elements, length, out, out_length);
}

static void call_open(void)
{
    answer = tuilarder_open(field, key, key_length, nonce, nonce_length, separator, separator_length, lengths, parts,
                            out, length, elements, out_length);
}

/* What the header says of each function, and the most that a call was seen to take. */
static struct function {
    const char *name;
    void (*call)(void);
    size_t said, most;
} layout = {"layout_3", call_layout, TUILARDER_STACK_LAYOUT_3, 0},
  starting = {"start", call_start, TUILARDER_STACK_START, 0},
  absorbing = {"absorb", call_absorb, TUILARDER_STACK_ABSORB, 0},
  squeezing = {"squeeze", call_squeeze, TUILARDER_STACK_SQUEEZE, 0},
  finishing = {"finish", call_finish, TUILARDER_STACK_FINISH, 0},
  writing = {"write_tag", call_write_tag, TUILARDER_STACK_WRITE_TAG, 0},
  reading = {"read_tag", call_read_tag, TUILARDER_STACK_READ_TAG, 0},
  cutting = {"cut", call_cut, TUILARDER_STACK_CUT, 0},
  permuting = {"permute", call_permute, TUILARDER_STACK_PERMUTE, 0},
  generating = {"generate", call_generate, TUILARDER_STACK_GENERATE, 0},
  hashing = {"sha3_256", call_sha3_256, TUILARDER_STACK_SHA3_256, 0},
  checking = {"check_owners", call_check_owners, TUILARDER_STACK_CHECK_OWNERS, 0},
  asking = {"owner", call_owner, TUILARDER_STACK_OWNER, 0},
  sealing = {"seal", call_seal, TUILARDER_STACK_SEAL, 0},
  opening = {"open", call_open, TUILARDER_STACK_OPEN, 0},
  *const functions[] = {&layout, &starting, &absorbing, &squeezing, &finishing, &writing, &reading, &cutting,
                        &permuting, &generating, &hashing, &checking, &asking, &sealing, &opening};

static void measure(struct function *function, uint32_t wanted)
{
    size_t bytes_taken = taken(function->call);
    CHECK(answer == wanted);
    if (bytes_taken > function->most)
        function->most = bytes_taken;
}

/* ---- sessions */

static void set_words(size_t so_many, uint32_t absorbed, uint32_t squeezed)
{
    words_length = so_many;
    for (size_t i = 0; i < so_many; i++)
        words[i] = i % 2 ? squeezed : A | absorbed;
}

/* The calls of a session on records that they turn away, each on the record as it is now. */
static void measure_on_bad_records(void)
{
    const struct tuilarder_session good = record;
    struct function *const of_sessions[] = {&absorbing, &squeezing, &finishing};
    for (size_t i = 0; i < 3; i++) {
        record = good;
        record.status = 0;
        measure(of_sessions[i], TUILARDER_RECORD_NOT_OPEN);
        record.status = 1;
        record.permutations++;
        measure(of_sessions[i], TUILARDER_RECORD_NOT_SOUND);
        record.permutations--;
        record.state[23] = UINT32_MAX;
        measure(of_sessions[i], TUILARDER_RECORD_NOT_SOUND);
    }
    record = good;
    length = 0;
    measure(&absorbing, TUILARDER_ACCEPTED);
    measure(&squeezing, TUILARDER_ACCEPTED);
}

/* A whole session, each phase cut in two, with what is refused on the way. */
static void measure_session(void)
{
    struct tuilarder_session before;
    measure(&starting, TUILARDER_ACCEPTED);
    for (size_t i = 0; i < words_length; i++) {
        struct function *right = i % 2 ? &squeezing : &absorbing, *wrong = i % 2 ? &absorbing : &squeezing;
        size_t whole = words[i] & ~A, half = whole / 2;
        if (i < 4 || i + 1 == words_length) {
            measure_on_bad_records();
            before = record;
            length = 1;
            measure(wrong, TUILARDER_CALL_NOT_IN_PATTERN);
            record = before;
            length = whole + 1;
            measure(right, TUILARDER_CALL_NOT_IN_PATTERN);
            record = before;
            measure(&finishing, TUILARDER_PATTERN_NOT_DONE);
            record = before;
        }
        if (i % 2 == 0) {
            uint32_t kept = elements[whole - 1];
            length = whole;
            elements[whole - 1] = UINT32_MAX;
            measure(&absorbing, TUILARDER_ELEMENT_NOT_REDUCED);
            elements[whole - 1] = kept;
        }
        before = record;
        length = whole;
        measure(right, TUILARDER_ACCEPTED);
        record = before;
        length = half;
        measure(right, TUILARDER_ACCEPTED);
        length = whole - half;
        measure(right, TUILARDER_ACCEPTED);
    }
    measure_on_bad_records();
    length = 1;
    before = record;
    measure(&absorbing, TUILARDER_CALL_NOT_IN_PATTERN);
    record = before;
    measure(&squeezing, TUILARDER_CALL_NOT_IN_PATTERN);
    record = before;
    measure(&finishing, TUILARDER_ACCEPTED);
}

/* The tag string of the words and the separator, written, read and read in part. */
static void measure_tag_string(void)
{
    out_length = sizeof string;
    measure(&writing, TUILARDER_ACCEPTED);
    length = count;
    measure(&reading, TUILARDER_ACCEPTED);
    out_length = length - 1;
    measure(&writing, TUILARDER_BUFFER_TOO_SHORT);
    length = 3;
    measure(&reading, TUILARDER_NOT_TAG_STRING);
    measure(&cutting, TUILARDER_ACCEPTED);
}

static void measure_patterns(void)
{
    static const size_t sizes[] = {1, 7, 8, 9, 16, 17, 1000, LONG};
    for (size_t i = 0; i < sizeof sizes / sizeof *sizes; i++) {
        separator_length = 32 * i;
        set_words(2, (uint32_t)sizes[i], (uint32_t)sizes[sizeof sizes / sizeof *sizes - 1 - i]);
        measure_session();
        measure_tag_string();
    }
    for (size_t so_many = 1; so_many <= TUILARDER_MAX_WORDS; so_many += so_many == 1 ? 2 : 61) {
        separator_length = TUILARDER_MAX_SEPARATOR;
        set_words(so_many, 9, 9);
        measure_session();
        measure_tag_string();
    }
}

/* START and writing turn these away alike; START checks the field too. */
static void measure_refused_patterns(void)
{
    static const struct refused {
        size_t so_many, separator;
        uint32_t first, last;
        uint32_t number;
    } refused[] = {
        {0, 0, 0, 0, TUILARDER_WORD_COUNT_OUT_OF_RANGE},
        {65, 256, A | 1, A | 1, TUILARDER_WORD_COUNT_OUT_OF_RANGE},
        {64, 256, A | 1, 0, TUILARDER_WORD_LENGTH_ZERO},
        {64, 256, A | 1, TUILARDER_MAX_CALL + 1, TUILARDER_CALL_TOO_LONG},
        {64, 256, 1, 1, TUILARDER_FIRST_WORD_SQUEEZE},
        {64, 257, A | 1, 1, TUILARDER_SEPARATOR_TOO_LONG},
    };
    out_length = sizeof string;
    for (size_t i = 0; i < sizeof refused / sizeof *refused; i++) {
        set_words(refused[i].so_many, 1, 1);
        words[0] = refused[i].first;
        if (words_length > 1)
            words[words_length - 1] = refused[i].last;
        separator_length = refused[i].separator;
        measure(&starting, refused[i].number);
        measure(&writing, refused[i].number);
    }
    set_words(65, 1, 1);
    measure(&cutting, TUILARDER_WORD_COUNT_OUT_OF_RANGE);
    set_words(1, UINT32_MAX, 0);
    measure(&cutting, TUILARDER_WORD_COUNT_OUT_OF_RANGE);
    set_words(1, 64 * TUILARDER_MAX_CALL, 0);
    measure(&cutting, TUILARDER_ACCEPTED);
    set_words(0, 0, 0);
    measure(&cutting, TUILARDER_ACCEPTED);
    if (form == FORM_1) {
        length = sizeof string;
        separator_length = 257;
    } else {
        length = 4;
        memset(string, 1, sizeof string);
    }
    measure(&reading, TUILARDER_SEPARATOR_TOO_LONG);
}

/* ---- the permutation, its constants and the hash */

static void measure_permutation(void)
{
    for (uint32_t first = 0; first < 1000; first += 333) {
        for (uint32_t i = 0; i < 24; i++)
            state[i] = first * i;
        measure(&permuting, TUILARDER_ACCEPTED);
    }
    state[23] = UINT32_MAX;
    measure(&permuting, TUILARDER_ELEMENT_NOT_REDUCED);
    measure(&generating, TUILARDER_ACCEPTED);
}

static void measure_hash(void)
{
    static const size_t sizes[] = {0, 1, 135, 136, 137, 272, 516, LONG};
    for (size_t i = 0; i < sizeof sizes / sizeof *sizes; i++) {
        length = sizes[i];
        measure(&hashing, 0);
    }
}

/* ---- owners */

/* A table of so many rows, which hold 2^25 numbers each and the last one all that are left. */
static void set_table(size_t rows)
{
    memset(table, 0, sizeof table);
    for (size_t i = 0; i < rows; i++) {
        uint8_t *row = table + 10 * i;
        row[0] = (uint8_t)(2 * i);
        row[4] = i + 1 == rows ? 255 : (uint8_t)(2 * i + 1);
        row[5] = row[6] = row[7] = 255;
    }
    length = 10 * rows;
}

static void measure_owners(void)
{
    for (size_t rows = 1; rows <= TUILARDER_MAX_OWNER_ROWS; rows += 127) {
        set_table(rows);
        measure(&checking, TUILARDER_ACCEPTED);
        separator_length = 256;
        measure(&asking, TUILARDER_ACCEPTED);
        separator_length = 3;
        measure(&asking, TUILARDER_SEPARATOR_TOO_SHORT);
        table[10 * rows - 6] = 254;
        measure(&checking, TUILARDER_OWNERS_GAP);
        measure(&asking, TUILARDER_OWNERS_GAP);
        length--;
        measure(&checking, TUILARDER_OWNERS_ROW_INVALID);
        measure(&asking, TUILARDER_OWNERS_ROW_INVALID);
    }
    length = sizeof table;
    measure(&checking, TUILARDER_OWNERS_ROW_INVALID);
}

/* ---- notes */

/* Seals a note and opens it: with its mark, with another, and with each other thing that is refused. */
static void measure_note(size_t blocks, uint32_t block, size_t separator_bytes)
{
    size_t plain = blocks * block, sealed = plain + TUILARDER_MARK_LENGTH;
    parts = blocks;
    separator_length = separator_bytes;
    for (size_t i = 0; i < blocks; i++)
        lengths[i] = block;
    length = plain;
    out_length = sealed;
    measure(&sealing, TUILARDER_ACCEPTED);
    key[7] = UINT32_MAX;
    measure(&sealing, TUILARDER_ELEMENT_NOT_REDUCED);
    key[7] = 0;
    nonce_length = 9;
    measure(&sealing, TUILARDER_SEAL_LENGTH_INVALID);
    nonce_length = 8;
    length = sealed;
    out_length = plain;
    measure(&opening, TUILARDER_ACCEPTED);
    out[sealed - 1] ^= 1;
    measure(&opening, TUILARDER_MARK_DIFFERS);
    out[sealed - 1] = UINT32_MAX;
    measure(&opening, TUILARDER_ELEMENT_NOT_REDUCED);
    out_length++;
    measure(&opening, TUILARDER_SEAL_LENGTH_INVALID);
    separator_length = 257;
    measure(&opening, TUILARDER_SEPARATOR_TOO_LONG);
    measure(&sealing, TUILARDER_SEPARATOR_TOO_LONG);
}

static void measure_notes(void)
{
    static const uint32_t blocks[] = {1, 7, 8, 9, 17, LONG / 31};
    for (size_t i = 0; i < sizeof blocks / sizeof *blocks; i++) {
        measure_note(1, blocks[i], 0);
        measure_note(2, blocks[i], 5);
        measure_note(TUILARDER_MAX_NOTE_BLOCKS, blocks[i], TUILARDER_MAX_SEPARATOR);
    }
}

/* ---- all of them */

static void *on_own_stack(void *none)
{
    measure(&layout, 0);
    for (size_t i = 0; i < LONG + 9; i++)
        elements[i] = (uint32_t)(20000 * i);
    for (field = BABY_BEAR; field <= KOALA_BEAR; field++) {
        for (form = FORM_1; form <= FORM_2; form++) {
            measure_patterns();
            measure_refused_patterns();
        }
        measure_permutation();
        measure_notes();
    }
    field = form = UNKNOWN;
    measure(&starting, TUILARDER_FIELD_UNKNOWN);
    measure(&permuting, TUILARDER_FIELD_UNKNOWN);
    measure(&generating, TUILARDER_FIELD_UNKNOWN);
    measure(&sealing, TUILARDER_FIELD_UNKNOWN);
    measure(&opening, TUILARDER_FIELD_UNKNOWN);
    measure(&writing, TUILARDER_FORM_UNKNOWN);
    measure(&reading, TUILARDER_FORM_UNKNOWN);
    field = BABY_BEAR;
    measure(&starting, TUILARDER_FORM_UNKNOWN);
    measure_hash();
    measure_owners();
    return none;
}

int main(void)
{
    pthread_attr_t attributes;
    pthread_t thread;
    CHECK(pthread_attr_init(&attributes) == 0 && pthread_attr_setstack(&attributes, stack, ROOM) == 0);
    CHECK(pthread_create(&thread, &attributes, on_own_stack, NULL) == 0 && pthread_join(thread, NULL) == 0);
    for (size_t i = 0; i < sizeof functions / sizeof *functions; i++) {
        const struct function *function = functions[i];
        int right = function->most <= function->said && function->said <= 2 * function->most;
        CHECK(right);
        if (!right)
            printf("    tuilarder_%s takes %zu bytes, and the header says %zu\n", function->name, function->most,
                   function->said);
    }
    return report("stack");
}
