/*
 * Calls the static library through tuilarder.h: sessions of both fields and both forms, those that end with ABSORB too, the record's members, an
 * example of each number, tag strings of both forms, words cut into calls, empty lists, and bad records. It is meant for valgrind: most of what is lent ends where its block ends.
 */
#include "tuilarder.h"

#include "lent.h"

#include <inttypes.h>

#define A TUILARDER_ABSORB_BIT
/* "limits one declared call to 16,777,216 elements" */
#define LIMIT 16777216u
#define BABY_BEAR TUILARDER_BABY_BEAR
#define KOALA_BEAR TUILARDER_KOALA_BEAR
#define FORM_1 TUILARDER_FORM_1
#define FORM_2 TUILARDER_FORM_2
/* below KoalaBear's prime and not below BabyBear's: an element of the one field alone */
#define BETWEEN TUILARDER_BABY_BEAR_PRIME
#define ROUNDS 3000
#define SEED UINT64_C(0x7475696c61726465)

static uint64_t random_state = SEED;

/* SplitMix64. */
static uint64_t next_random(void)
{
    uint64_t z = random_state += UINT64_C(0x9e3779b97f4a7c15);
    z = (z ^ (z >> 30)) * UINT64_C(0xbf58476d1ce4e5b9);
    z = (z ^ (z >> 27)) * UINT64_C(0x94d049bb133111eb);
    return z ^ (z >> 31);
}

static uint32_t below(uint64_t bound)
{
    return (uint32_t)(next_random() % bound);
}

static void fill_random(void *at, size_t length)
{
    for (size_t i = 0; i < length; i++)
        ((unsigned char *)at)[i] = (unsigned char)next_random();
}

/* ---- fields, forms and records */

static const uint32_t fields[] = {BABY_BEAR, KOALA_BEAR}, forms[] = {FORM_1, FORM_2};

/* Numbers that no field has, and no form: in some a part of the bits is the number of one. */
#define UNKNOWN 7
static const uint32_t unknown[UNKNOWN] = {0, 3, 257, 65538, 0x80000000u, 0x80000001u, 0xffffffffu};

static uint32_t prime(uint32_t field)
{
    return field == KOALA_BEAR ? TUILARDER_KOALA_BEAR_PRIME : TUILARDER_BABY_BEAR_PRIME;
}

/* A number that is no element of the field, at times one that is an element of the other. */
static uint32_t bad_element(uint32_t field)
{
    if (field == BABY_BEAR && next_random() % 2)
        return BETWEEN + below(TUILARDER_KOALA_BEAR_PRIME - BETWEEN);
    return prime(field) + below(UINT64_C(0x100000000) - prime(field));
}

/* ---- sessions */

/* Document 01's samples B4 to B7, B7 with a separator, and patterns that end with ABSORB, in both fields and both forms: permutations before FINISH, and the last
   element squeezed where the numbers from first on are absorbed, 0 if none is. That element is from the second implementation, in Python. */
static const struct sample {
    uint32_t field, form;
    uint32_t words[4];
    size_t count;
    const char *separator;
    uint32_t first;
    uint64_t permutations;
    uint32_t last;
} samples[] = {
    {BABY_BEAR, FORM_1, {A | 8, 1}, 2, "", 1, 1, 1413794352},
    {BABY_BEAR, FORM_1, {A | 9, 1}, 2, "", 1, 2, 774647143},
    {BABY_BEAR, FORM_1, {A | 1, 9}, 2, "", 1, 2, 669881811},
    {BABY_BEAR, FORM_1, {A | 8, 8, A | 1, 1}, 4, "", 1, 2, 19357506},
    {BABY_BEAR, FORM_1, {A | 8, 8, A | 1, 1}, 4, "AB", 1, 2, 1610560294},
    {BABY_BEAR, FORM_1, {A | 8}, 1, "", 1, 0, 0},
    {BABY_BEAR, FORM_1, {A | 9}, 1, "", 1, 1, 0},
    {BABY_BEAR, FORM_1, {A | 8, 8, A | 9}, 3, "", 1, 2, 1386593099},
    {KOALA_BEAR, FORM_1, {A | 8, 1}, 2, "", 1, 1, 660617525},
    {KOALA_BEAR, FORM_1, {A | 9, 1}, 2, "", 1, 2, 340153162},
    {KOALA_BEAR, FORM_1, {A | 1, 9}, 2, "", 1, 2, 992041210},
    {KOALA_BEAR, FORM_1, {A | 8, 8, A | 1, 1}, 4, "", 1, 2, 1420244152},
    {KOALA_BEAR, FORM_1, {A | 8, 8, A | 1, 1}, 4, "AB", 1, 2, 71205172},
    {KOALA_BEAR, FORM_1, {A | 8, 1}, 2, "", BETWEEN, 1, 2112122197},
    {KOALA_BEAR, FORM_1, {A | 8}, 1, "", BETWEEN, 0, 0},
    {KOALA_BEAR, FORM_1, {A | 9}, 1, "", BETWEEN, 1, 0},
    {KOALA_BEAR, FORM_1, {A | 8, 8, A | 9}, 3, "", 1, 2, 1473928020},
    {BABY_BEAR, FORM_2, {A | 8, 1}, 2, "", 1, 1, 870047549},
    {BABY_BEAR, FORM_2, {A | 8, 8, A | 1, 1}, 4, "AB", 1, 2, 762161457},
    {BABY_BEAR, FORM_2, {A | 8, 8, A | 9}, 3, "AB", 1, 2, 29371843},
    {KOALA_BEAR, FORM_2, {A | 8, 1}, 2, "", 1, 1, 138808816},
    {KOALA_BEAR, FORM_2, {A | 8, 8, A | 1, 1}, 4, "AB", 1, 2, 1390424282},
    {KOALA_BEAR, FORM_2, {A | 8, 8, A | 9}, 3, "AB", 1, 2, 1027997173},
};

/* One phase of a sample: absorbs the numbers from first on, or squeezes. Gives the last element. */
static uint32_t run_phase(struct tuilarder_session *session, uint32_t word, uint32_t first)
{
    size_t length = word & ~A;
    struct lent list = lend(length * sizeof(uint32_t), 0);
    uint32_t *elements = list.part;
    if (word & A) {
        for (size_t i = 0; i < length; i++)
            elements[i] = first + (uint32_t)i;
        remember(&list);
        CHECK(tuilarder_absorb(session, elements, length) == TUILARDER_ACCEPTED);
        CHECK(same(&list));
    } else {
        CHECK(tuilarder_squeeze(session, elements, length) == TUILARDER_ACCEPTED);
    }
    uint32_t last = elements[length - 1];
    give_back(&list);
    return last;
}

static void test_sample(const struct sample *sample)
{
    struct lent record = lend(sizeof(struct tuilarder_session), 0);
    struct lent words = lend_copy(sample->words, sample->count * sizeof(uint32_t));
    struct lent separator = lend_copy(sample->separator, strlen(sample->separator));
    struct tuilarder_session *session = record.part;
    CHECK(tuilarder_start(session, sample->field, sample->form, words.part, sample->count, separator.part, separator.length)
          == TUILARDER_ACCEPTED);
    uint32_t next = sample->first, squeezed = 0;
    for (size_t k = 0; k < sample->count; k++) {
        if (sample->words[k] & A)
            next = run_phase(session, sample->words[k], next) + 1;
        else
            squeezed = run_phase(session, sample->words[k], 0);
    }
    CHECK(session->permutations == sample->permutations);
    CHECK(squeezed == sample->last);
    CHECK(tuilarder_finish(session) == TUILARDER_ACCEPTED);
    CHECK(wiped(&record));
    CHECK(same(&words) && same(&separator));
    give_back(&separator);
    give_back(&words);
    give_back(&record);
}

/* ---- the record's members, by name */

#define MEMBER_WORDS {A | 3, 33, A | 13, 15}

/* Calls of a session, and the place behind each by document 01's steps. Behind the fifth call, and behind the seventh, status, count and these
   are seven different numbers; behind the seventh no one of them is the number of KoalaBear. */
static const struct place {
    uint32_t call;
    uint32_t phase, done, absorb_position, squeeze_position;
    uint64_t permutations;
} places[] = {
    {A | 2, 0, 2, 2, 8, 0},
    {A | 1, 1, 0, 3, 8, 0},
    {20, 1, 20, 0, 4, 3},
    {13, 2, 0, 0, 1, 5},
    {A | 11, 2, 11, 3, 8, 6},
    {A | 2, 3, 0, 5, 8, 6},
    {13, 3, 13, 0, 5, 8},
    {2, 4, 0, 0, 7, 8},
};

static void check_place(const struct tuilarder_session *session, uint32_t field, uint32_t form, const struct place *place)
{
    const uint32_t words[TUILARDER_MAX_WORDS] = MEMBER_WORDS;
    CHECK(session->status == 1);
    CHECK(session->field == field);
    CHECK(session->form == form);
    CHECK(memcmp(session->words, words, sizeof words) == 0);
    CHECK(session->count == 4);
    CHECK(session->phase == place->phase);
    CHECK(session->done == place->done);
    CHECK(session->absorb_position == place->absorb_position);
    CHECK(session->squeeze_position == place->squeeze_position);
    CHECK(session->permutations == place->permutations);
}

/* The state that START gives, whatever the field is: the eight words of the tag string's digest, of 30 bits each, behind eight zeros. The digests, of
   form 1's string and form 2's, are those of Python's hashlib. */
static void check_first_state(const struct tuilarder_session *session, uint32_t form)
{
    const uint32_t states[2][TUILARDER_WIDTH] = {
        {0, 0, 0, 0, 0, 0, 0, 0,
         623774289, 539521011, 351027650, 984081605, 326586652, 53903310, 842546509, 409758037},
        {0, 0, 0, 0, 0, 0, 0, 0,
         146954842, 1068976873, 1048048235, 203322670, 207474281, 756664685, 738555886, 162951480}};
    CHECK(memcmp(session->state, states[form - 1], sizeof *states) == 0);
}

/* Absorbs 101, 102 .. or squeezes, and compares with the state: nothing else lies there before the first permutation, and squeezed elements
   are copies of it. */
static void call_of_place(struct tuilarder_session *session, const struct place *place)
{
    uint32_t elements[20];
    size_t length = place->call & ~A;
    for (size_t i = 0; i < length; i++)
        elements[i] = 101 + (uint32_t)i;
    if (place->call & A) {
        CHECK(tuilarder_absorb(session, elements, length) == TUILARDER_ACCEPTED);
        CHECK(place != places || (session->state[0] == 101 && session->state[1] == 102 && session->state[2] == 0));
    } else {
        CHECK(tuilarder_squeeze(session, elements, length) == TUILARDER_ACCEPTED);
        CHECK(session->state[place->squeeze_position - 1] == elements[length - 1]);
    }
}

static void test_members(uint32_t field, uint32_t form)
{
    const uint32_t words[] = MEMBER_WORDS;
    const struct place start = {0, 0, 0, 0, 0, 0};
    struct tuilarder_session session;
    CHECK(tuilarder_start(&session, field, form, words, 4, (const uint8_t *)"fields", 6) == TUILARDER_ACCEPTED);
    check_place(&session, field, form, &start);
    check_first_state(&session, form);
    for (size_t i = 0; i < sizeof places / sizeof *places; i++) {
        call_of_place(&session, &places[i]);
        check_place(&session, field, form, &places[i]);
    }
    CHECK(tuilarder_finish(&session) == TUILARDER_ACCEPTED);
}

/* ---- an example of each number */

/* Document 01's examples for 1 to 6, of which 4's is accepted, and 5's gets 19, as sample B3 does; 65 words; 19 behind 2 and before 3, whichever
   word is at fault; and what is just accepted, with a last word of either kind. */
static const struct start_example {
    uint32_t number;
    uint32_t words[4];
    size_t count;
    size_t separator_length;
} start_examples[] = {
    {TUILARDER_WORD_COUNT_OUT_OF_RANGE, {0}, 0, 0},
    {TUILARDER_WORD_COUNT_OUT_OF_RANGE, {0}, 65, 257},
    {TUILARDER_WORD_LENGTH_ZERO, {A | 3, 0}, 2, 0},
    {TUILARDER_FIRST_WORD_SQUEEZE, {1}, 1, 0},
    {TUILARDER_ACCEPTED, {A | 1}, 1, 0},
    {TUILARDER_CALL_TOO_LONG, {0xffffffffu, A | 1, 1}, 3, 0},
    {TUILARDER_CALL_TOO_LONG, {0xfffffffeu, A | 1, 1}, 3, 0},
    {TUILARDER_SEPARATOR_TOO_LONG, {A | 1, 1}, 2, 257},
    {TUILARDER_ACCEPTED, {A | 1, 1}, 2, 256},
    {TUILARDER_WORD_COUNT_OUT_OF_RANGE, {LIMIT + 1}, 65, 257},
    {TUILARDER_WORD_LENGTH_ZERO, {LIMIT + 1, A}, 2, 0},
    {TUILARDER_CALL_TOO_LONG, {A | (LIMIT + 1), 1}, 2, 257},
    {TUILARDER_CALL_TOO_LONG, {A | 1, LIMIT + 1}, 2, 0},
    {TUILARDER_CALL_TOO_LONG, {1, A | (LIMIT + 1)}, 2, 0},
    {TUILARDER_FIRST_WORD_SQUEEZE, {LIMIT, A | LIMIT}, 2, 0},
    {TUILARDER_FIRST_WORD_SQUEEZE, {1, A | 1}, 2, 257},
    {TUILARDER_WORD_LENGTH_ZERO, {A | 1, 1, A}, 3, 257},
    {TUILARDER_CALL_TOO_LONG, {A | 1, 1, A | (LIMIT + 1)}, 3, 257},
    {TUILARDER_SEPARATOR_TOO_LONG, {A | LIMIT, A | LIMIT}, 2, 257},
    {TUILARDER_SEPARATOR_TOO_LONG, {A | 1, 1, A | LIMIT}, 3, 257},
    {TUILARDER_ACCEPTED, {A | LIMIT, A | LIMIT}, 2, 256},
    {TUILARDER_ACCEPTED, {A | 1, 1, A | LIMIT, A | LIMIT}, 4, 0},
    {TUILARDER_ACCEPTED, {A | LIMIT, LIMIT}, 2, 0},
    {TUILARDER_ACCEPTED, {A | LIMIT, A | LIMIT, LIMIT, 1}, 4, 256},
};

/* START into a record of any bytes, which it leaves open with its field and its form, or wiped. */
static void start_in(uint32_t number, uint32_t field, uint32_t form, const struct lent *words, const struct lent *separator)
{
    struct lent record = lend(sizeof(struct tuilarder_session), 0);
    struct tuilarder_session *session = record.part;
    fill_random(record.part, record.length);
    CHECK(tuilarder_start(session, field, form, words->part, words->length / sizeof(uint32_t), separator->part, separator->length)
          == number);
    CHECK(number == TUILARDER_ACCEPTED ? session->status == 1 && session->field == field && session->form == form : wiped(&record));
    give_back(&record);
}

/* START in each field and form; in an unknown form it gives 22, and in an unknown field 18, whatever else is wrong. */
static void start_in_all(uint32_t number, const struct lent *words, const struct lent *separator)
{
    for (size_t i = 0; i < 2; i++) {
        for (size_t k = 0; k < 2; k++)
            start_in(number, fields[i], forms[k], words, separator);
        for (size_t k = 0; k < UNKNOWN; k++) {
            start_in(TUILARDER_FORM_UNKNOWN, fields[i], unknown[k], words, separator);
            start_in(TUILARDER_FIELD_UNKNOWN, unknown[k], forms[i], words, separator);
        }
    }
    for (size_t i = 0; i < UNKNOWN; i++)
        for (size_t k = 0; k < UNKNOWN; k++)
            start_in(TUILARDER_FIELD_UNKNOWN, unknown[i], unknown[k], words, separator);
}

/* How many words a pattern has when it is merged. */
static size_t merged_count(const uint32_t *words, size_t count)
{
    size_t merged = count != 0;
    for (size_t k = 1; k < count; k++)
        merged += (words[k] & A) != (words[k - 1] & A);
    return merged;
}

/* Writing into a buffer of any bytes, which is left where it is refused. */
static void write_in(uint32_t number, uint32_t form, const struct lent *words, const struct lent *separator)
{
    struct lent out = lend(TUILARDER_MAX_TAG_STRING, 0);
    size_t written = 1, count = words->length / sizeof(uint32_t);
    fill_random(out.part, out.length);
    remember(&out);
    CHECK(tuilarder_write_tag(form, words->part, count, separator->part, separator->length, out.part, out.length, &written) == number);
    if (number == TUILARDER_ACCEPTED)
        CHECK(written == 4 * merged_count(words->part, count) + separator->length + (form == FORM_2 ? 4 : 0));
    else
        CHECK(written == 0 && same(&out));
    give_back(&out);
}

/* START, and the same of writing, which takes no field: in an unknown form it gives 22 first. */
static void test_start(const struct start_example *example)
{
    struct lent words = lend(example->count * sizeof(uint32_t), 0);
    struct lent separator = lend(example->separator_length, 0);
    memset(words.part, 0, words.length);
    memcpy(words.part, example->words, example->count > 4 ? sizeof example->words : words.length);
    memset(separator.part, 7, separator.length);
    start_in_all(example->number, &words, &separator);
    for (size_t k = 0; k < 2; k++)
        write_in(example->number, forms[k], &words, &separator);
    for (size_t k = 0; k < UNKNOWN; k++)
        write_in(TUILARDER_FORM_UNKNOWN, unknown[k], &words, &separator);
    give_back(&separator);
    give_back(&words);
}

/* The form of the records below: of BabyBear form 2, of KoalaBear form 1, so that the two numbers of a record differ. */
static uint32_t form_beside(uint32_t field)
{
    return 3 - field;
}

/* A record that START opened for ABSORB 1, SQUEEZE 1. */
static struct lent open_record(uint32_t field)
{
    const uint32_t words[2] = {A | 1, 1};
    struct lent record = lend(sizeof(struct tuilarder_session), 0);
    CHECK(tuilarder_start(record.part, field, form_beside(field), words, 2, NULL, 0) == TUILARDER_ACCEPTED);
    remember(&record);
    return record;
}

/* ABSORB, SQUEEZE and FINISH each give this number, and leave the record and the buffer. */
static void check_all_refuse(struct lent *record, struct lent *buffer, uint32_t number)
{
    size_t length = buffer->length / sizeof(uint32_t);
    remember(record);
    remember(buffer);
    CHECK(tuilarder_absorb(record->part, buffer->part, length) == number);
    CHECK(same(record) && same(buffer));
    CHECK(tuilarder_squeeze(record->part, buffer->part, length) == number);
    CHECK(same(record) && same(buffer));
    CHECK(tuilarder_finish(record->part) == number);
    CHECK(same(record) && same(buffer));
}

/* 7 after FINISH, and 8 at absorb position 9. */
static void test_bad_record(uint32_t field)
{
    const uint32_t one = 1;
    uint32_t squeezed;
    struct lent buffer = lend_copy(&one, sizeof one);
    struct lent finished = open_record(field), spoilt = open_record(field);
    CHECK(tuilarder_absorb(finished.part, &one, 1) == TUILARDER_ACCEPTED);
    CHECK(tuilarder_squeeze(finished.part, &squeezed, 1) == TUILARDER_ACCEPTED);
    CHECK(tuilarder_finish(finished.part) == TUILARDER_ACCEPTED);
    check_all_refuse(&finished, &buffer, TUILARDER_RECORD_NOT_OPEN);
    CHECK(wiped(&finished));
    ((struct tuilarder_session *)spoilt.part)->absorb_position = 9;
    check_all_refuse(&spoilt, &buffer, TUILARDER_RECORD_NOT_SOUND);
    give_back(&spoilt);
    give_back(&finished);
    give_back(&buffer);
}

/* 8 for a record of an unknown field, and for one of BabyBear with an element that is of KoalaBear alone. */
static void test_record_of_another_field(uint32_t field)
{
    const uint32_t one = 1;
    struct lent record = open_record(field), buffer = lend_copy(&one, sizeof one);
    struct tuilarder_session *session = record.part;
    for (size_t i = 0; i < UNKNOWN; i++) {
        session->field = unknown[i];
        check_all_refuse(&record, &buffer, TUILARDER_RECORD_NOT_SOUND);
    }
    session->state[23] = BETWEEN;
    session->field = BABY_BEAR;
    check_all_refuse(&record, &buffer, TUILARDER_RECORD_NOT_SOUND);
    session->field = KOALA_BEAR;
    CHECK(tuilarder_absorb(session, &one, 1) == TUILARDER_ACCEPTED);
    CHECK(session->field == KOALA_BEAR && session->state[23] == BETWEEN);
    give_back(&buffer);
    give_back(&record);
}

/* 8 for a record of an unknown form; one that says the other form is sound, and keeps that. */
static void test_record_of_another_form(uint32_t field)
{
    const uint32_t one = 1;
    uint32_t squeezed;
    struct lent record = open_record(field), buffer = lend_copy(&one, sizeof one);
    struct tuilarder_session *session = record.part;
    for (size_t i = 0; i < UNKNOWN; i++) {
        session->form = unknown[i];
        check_all_refuse(&record, &buffer, TUILARDER_RECORD_NOT_SOUND);
    }
    session->form = field;
    CHECK(tuilarder_absorb(session, &one, 1) == TUILARDER_ACCEPTED && session->form == field);
    CHECK(tuilarder_squeeze(session, &squeezed, 1) == TUILARDER_ACCEPTED && session->form == field);
    CHECK(tuilarder_finish(session) == TUILARDER_ACCEPTED && wiped(&record));
    give_back(&buffer);
    give_back(&record);
}

/* 9 for the wrong kind, past the phase's end, and after the last phase. */
static void test_call_not_in_pattern(uint32_t field)
{
    const uint32_t ones[2] = {1, 1};
    uint32_t squeezed;
    struct lent buffer = lend_copy(ones, sizeof ones);
    struct lent wrong_kind = open_record(field), past_end = open_record(field), after_last = open_record(field);
    CHECK(tuilarder_squeeze(wrong_kind.part, buffer.part, 1) == TUILARDER_CALL_NOT_IN_PATTERN);
    CHECK(wiped(&wrong_kind) && same(&buffer));
    CHECK(tuilarder_absorb(past_end.part, buffer.part, 2) == TUILARDER_CALL_NOT_IN_PATTERN);
    CHECK(wiped(&past_end) && same(&buffer));
    CHECK(tuilarder_absorb(after_last.part, ones, 1) == TUILARDER_ACCEPTED);
    CHECK(tuilarder_squeeze(after_last.part, &squeezed, 1) == TUILARDER_ACCEPTED);
    CHECK(tuilarder_squeeze(after_last.part, buffer.part, 1) == TUILARDER_CALL_NOT_IN_PATTERN);
    CHECK(wiped(&after_last) && same(&buffer));
    give_back(&after_last);
    give_back(&past_end);
    give_back(&wrong_kind);
    give_back(&buffer);
}

/* 10 for p, not for p - 1; 11 for FINISH straight after START. */
static void test_element_and_finish(uint32_t field)
{
    const uint32_t p = prime(field), less = p - 1;
    struct lent record = open_record(field), unfinished = open_record(field);
    CHECK(tuilarder_absorb(record.part, &p, 1) == TUILARDER_ELEMENT_NOT_REDUCED);
    CHECK(same(&record));
    CHECK(tuilarder_absorb(record.part, &less, 1) == TUILARDER_ACCEPTED);
    CHECK(!same(&record));
    CHECK(tuilarder_finish(unfinished.part) == TUILARDER_PATTERN_NOT_DONE);
    CHECK(wiped(&unfinished));
    give_back(&unfinished);
    give_back(&record);
}

/* ---- sessions that end with ABSORB */

/* Patterns whose last word is ABSORB, the permutations of the whole session, and the absorb position that its last element leaves. */
static const struct ending {
    uint32_t words[3];
    size_t count;
    uint64_t permutations;
    uint32_t absorb_position;
} endings[] = {
    {{A | 1}, 1, 0, 1},
    {{A | 8}, 1, 0, 8},
    {{A | 9}, 1, 1, 1},
    {{A | 16}, 1, 1, 8},
    {{A | 1, 1, A | 1}, 3, 1, 1},
    {{A | 8, 8, A | 8}, 3, 1, 8},
    {{A | 9, 9, A | 9}, 3, 4, 1},
};

/* A copy of the record as it is. */
static struct lent fork_of(const struct lent *record)
{
    return lend_copy(record->part, record->length);
}

/* A place from which neither kind of call goes on: each gets 9, wipes its record, and leaves the list or the buffer. */
static void check_no_call(const struct lent *record)
{
    const uint32_t one = 1;
    struct lent buffer = lend_copy(&one, sizeof one), absorbing = fork_of(record), squeezing = fork_of(record);
    CHECK(tuilarder_absorb(absorbing.part, buffer.part, 1) == TUILARDER_CALL_NOT_IN_PATTERN);
    CHECK(wiped(&absorbing) && same(&buffer));
    CHECK(tuilarder_squeeze(squeezing.part, buffer.part, 1) == TUILARDER_CALL_NOT_IN_PATTERN);
    CHECK(wiped(&squeezing) && same(&buffer));
    give_back(&squeezing);
    give_back(&absorbing);
    give_back(&buffer);
}

/* Before the last element: FINISH gets 11, and SQUEEZE 9, with the buffer as it was. */
static void check_not_done(const struct lent *record)
{
    const uint32_t one = 1;
    struct lent buffer = lend_copy(&one, sizeof one), finishing = fork_of(record), squeezing = fork_of(record);
    CHECK(tuilarder_finish(finishing.part) == TUILARDER_PATTERN_NOT_DONE && wiped(&finishing));
    CHECK(tuilarder_squeeze(squeezing.part, buffer.part, 1) == TUILARDER_CALL_NOT_IN_PATTERN);
    CHECK(wiped(&squeezing) && same(&buffer));
    give_back(&squeezing);
    give_back(&finishing);
    give_back(&buffer);
}

/* After the last element, which is added to the state and not permuted. Empty calls are accepted, others are not, and FINISH is. */
static void check_done(struct lent *record, const struct ending *ending)
{
    const struct tuilarder_session *session = record->part;
    CHECK(session->status == 1 && session->count == ending->count && session->phase == ending->count && session->done == 0);
    CHECK(session->absorb_position == ending->absorb_position && session->squeeze_position == 8);
    CHECK(session->permutations == ending->permutations);
    remember(record);
    CHECK(tuilarder_absorb(record->part, NULL, 0) == TUILARDER_ACCEPTED && same(record));
    CHECK(tuilarder_squeeze(record->part, NULL, 0) == TUILARDER_ACCEPTED && same(record));
    check_no_call(record);
    CHECK(tuilarder_finish(record->part) == TUILARDER_ACCEPTED && wiped(record));
}

static void test_ending(uint32_t field, const struct ending *ending)
{
    struct lent words = lend_copy(ending->words, ending->count * sizeof(uint32_t));
    struct lent record = lend(sizeof(struct tuilarder_session), 0);
    struct tuilarder_session *session = record.part;
    uint32_t last = ending->words[ending->count - 1], before;
    CHECK(tuilarder_start(session, field, form_beside(field), words.part, ending->count, (const uint8_t *)"ending", 6) == TUILARDER_ACCEPTED);
    for (size_t k = 0; k + 1 < ending->count; k++)
        run_phase(session, ending->words[k], 1);
    if ((last & ~A) > 1)
        run_phase(session, last - 1, 1);
    check_not_done(&record);
    before = session->state[ending->absorb_position - 1];
    run_phase(session, A | 1, 7);
    CHECK(ending->absorb_position == 1 || session->state[ending->absorb_position - 1] == (before + 7) % prime(field));
    check_done(&record, ending);
    give_back(&record);
    give_back(&words);
}

/* Words taken away by hand from the record of ABSORB 1, SQUEEZE 1: without the last one it is sound, and without any it is not. */
static void test_words_of_record(uint32_t field)
{
    const uint32_t one = 1;
    struct lent record = open_record(field), none = open_record(field), buffer = lend_copy(&one, sizeof one);
    struct tuilarder_session *session = record.part, *empty = none.part;
    session->words[1] = 0;
    session->count = 1;
    CHECK(tuilarder_absorb(session, &one, 1) == TUILARDER_ACCEPTED && session->phase == 1);
    CHECK(tuilarder_finish(session) == TUILARDER_ACCEPTED && wiped(&record));
    empty->words[0] = empty->words[1] = 0;
    empty->count = 0;
    check_all_refuse(&none, &buffer, TUILARDER_RECORD_NOT_SOUND);
    give_back(&buffer);
    give_back(&none);
    give_back(&record);
}

/* ---- tag strings, words cut, the permutation, the generator and the hash */

/* Sample B1 in a form: its string, written into as many bytes and one more, and not into one less. */
static void test_write_tag(uint32_t form, size_t size)
{
    const uint32_t words[3] = {A | 3, A | 3, 3};
    const uint8_t separator[2] = {0x41, 0x42}, string[14] = {0x80, 0, 0, 6, 0, 0, 0, 3, 0x41, 0x42, 0, 0, 0, 2};
    struct lent exact = lend(size, 0), longer = lend(size + 1, 0), shorter = lend_copy("unchanged, all", size - 1);
    struct lent length = lend(sizeof(size_t), 0);
    size_t *written = length.part;
    CHECK(tuilarder_write_tag(form, words, 3, separator, 2, exact.part, size, written) == TUILARDER_ACCEPTED);
    CHECK(*written == size && holds(&exact, string));
    ((uint8_t *)longer.part)[size] = '!';
    CHECK(tuilarder_write_tag(form, words, 3, separator, 2, longer.part, size + 1, written) == TUILARDER_ACCEPTED);
    CHECK(*written == size && memcmp(longer.part, string, size) == 0 && ((uint8_t *)longer.part)[size] == '!' && same_guards(&longer));
    CHECK(tuilarder_write_tag(form, words, 3, separator, 2, shorter.part, size - 1, written) == TUILARDER_BUFFER_TOO_SHORT);
    CHECK(wiped(&length) && same(&shorter));
    give_back(&length);
    give_back(&shorter);
    give_back(&longer);
    give_back(&exact);
}

/* What reading gives: the number, the words and how many they are, and where the separator lies. */
struct reading {
    uint32_t number;
    uint32_t words[TUILARDER_MAX_WORDS];
    size_t count, separator_start, separator_count;
};

/* Reads a string, which is only read, into what nobody has set, and compares all of it. */
static void check_read(uint32_t form, const void *bytes, size_t length, size_t given, const struct reading *wanted)
{
    struct lent string = lend_copy(bytes, length), words = lend(sizeof wanted->words, 0);
    struct lent count = lend(sizeof(size_t), 0), start = lend(sizeof(size_t), 0), size = lend(sizeof(size_t), 0);
    CHECK(tuilarder_read_tag(form, string.part, length, given, words.part, count.part, start.part, size.part) == wanted->number);
    CHECK(holds(&words, wanted->words) && holds(&count, &wanted->count) && same(&string));
    CHECK(holds(&start, &wanted->separator_start) && holds(&size, &wanted->separator_count));
    give_back(&size);
    give_back(&start);
    give_back(&count);
    give_back(&words);
    give_back(&string);
}

/* A refused string: no words, and the empty separator at its end. */
static void check_not_read(uint32_t form, const void *bytes, size_t length, size_t given, uint32_t number)
{
    const struct reading refused = {number, {0}, 0, length, 0};
    check_read(form, bytes, length, given, &refused);
}

/* B1's string read back; with length 0, 80000003, which is a tag string, and 00000001, which is none; and a separator that is too long. */
static void test_read_tag(void)
{
    const struct reading merged = {TUILARDER_ACCEPTED, {A | 6, 3}, 2, 8, 2}, absorbing = {TUILARDER_ACCEPTED, {A | 3}, 1, 4, 0};
    const uint8_t string[10] = {0x80, 0, 0, 6, 0, 0, 0, 3, 0x41, 0x42}, absorb[4] = {0x80, 0, 0, 3}, squeeze[4] = {0, 0, 0, 1};
    check_read(FORM_1, string, 10, 2, &merged);
    check_read(FORM_1, absorb, 4, 0, &absorbing);
    check_not_read(FORM_1, squeeze, 4, 0, TUILARDER_NOT_TAG_STRING);
    check_not_read(FORM_1, string, 10, 257, TUILARDER_SEPARATOR_TOO_LONG);
    check_not_read(FORM_1, string, 10, 11, TUILARDER_NOT_TAG_STRING);
    for (size_t i = 0; i < UNKNOWN; i++) {
        check_not_read(unknown[i], string, 10, 2, TUILARDER_FORM_UNKNOWN);
        check_not_read(unknown[i], string, 10, 257, TUILARDER_FORM_UNKNOWN);
        check_not_read(unknown[i], "", 0, 0, TUILARDER_FORM_UNKNOWN);
    }
}

/* Lengths that may be given in form 2, where none is looked at. */
#define GIVEN 6
static const size_t any_given[GIVEN] = {0, 2, 3, 256, 257, SIZE_MAX};

/* Strings of form 2 that are read: B1's, one without a separator, one with a byte, and one whose separator could be a word. */
static void test_read_form_2(void)
{
    static const struct {
        uint8_t bytes[16];
        size_t length;
        struct reading wanted;
    } strings[] = {
        {{0x80, 0, 0, 6, 0, 0, 0, 3, 0x41, 0x42, 0, 0, 0, 2}, 14, {TUILARDER_ACCEPTED, {A | 6, 3}, 2, 8, 2}},
        {{0x80, 0, 0, 1, 0, 0, 0, 0}, 8, {TUILARDER_ACCEPTED, {A | 1}, 1, 4, 0}},
        {{0x80, 0, 0, 1, 7, 0, 0, 0, 1}, 9, {TUILARDER_ACCEPTED, {A | 1}, 1, 4, 1}},
        {{0x80, 0, 0, 1, 0, 0, 0, 1, 0, 0, 0, 0}, 12, {TUILARDER_ACCEPTED, {A | 1, 1}, 2, 8, 0}},
        {{0x80, 0, 0, 1, 0, 0, 0, 1, 0, 0, 0, 4}, 12, {TUILARDER_ACCEPTED, {A | 1}, 1, 4, 4}},
    };
    for (size_t i = 0; i < sizeof strings / sizeof *strings; i++)
        for (size_t k = 0; k < GIVEN; k++)
            check_read(FORM_2, strings[i].bytes, strings[i].length, any_given[k], &strings[i].wanted);
}

/* Strings of form 2 that are not: of 0 to 8 bytes; with a tail that names all that precedes it, or one byte more; with one above 256, which gets 6
   whatever precedes it; and with a tail whose bytes are in the other order. */
static void test_not_read_form_2(void)
{
    static const struct {
        uint8_t bytes[16];
        size_t length;
        uint32_t number;
    } strings[] = {
        {{0}, 0, TUILARDER_NOT_TAG_STRING},
        {{0}, 1, TUILARDER_NOT_TAG_STRING},
        {{0, 0}, 2, TUILARDER_NOT_TAG_STRING},
        {{0xff, 0xff, 0xff}, 3, TUILARDER_NOT_TAG_STRING},
        {{0, 0, 0, 0}, 4, TUILARDER_NOT_TAG_STRING},
        {{0, 0, 0, 1}, 4, TUILARDER_NOT_TAG_STRING},
        {{0, 0, 1, 0}, 4, TUILARDER_NOT_TAG_STRING},
        {{0, 0, 1, 1}, 4, TUILARDER_SEPARATOR_TOO_LONG},
        {{0xff, 0xff, 0xff, 0xff}, 4, TUILARDER_SEPARATOR_TOO_LONG},
        {{7, 0, 0, 0, 1}, 5, TUILARDER_NOT_TAG_STRING},
        {{7, 0, 0, 0, 0}, 5, TUILARDER_NOT_TAG_STRING},
        {{0x80, 0, 0, 0, 0, 0}, 6, TUILARDER_NOT_TAG_STRING},
        {{0x80, 0, 0, 0, 0, 0, 0}, 7, TUILARDER_NOT_TAG_STRING},
        {{0x80, 0, 0, 1, 0, 0, 0, 4}, 8, TUILARDER_NOT_TAG_STRING},
        {{0x80, 0, 0, 1, 0, 0, 0, 5}, 8, TUILARDER_NOT_TAG_STRING},
        {{0x80, 0, 0, 1, 0, 0, 0, 1}, 8, TUILARDER_NOT_TAG_STRING},
        {{0x80, 0, 0, 1, 0, 0, 1, 0}, 8, TUILARDER_NOT_TAG_STRING},
        {{0x80, 0, 0, 1, 0, 0, 1, 1}, 8, TUILARDER_SEPARATOR_TOO_LONG},
        {{0x80, 0, 0, 1, 0xff, 0xff, 0xff, 0xff}, 8, TUILARDER_SEPARATOR_TOO_LONG},
        {{0x00, 0, 0, 1, 0, 0, 0, 0}, 8, TUILARDER_NOT_TAG_STRING},
        {{0x80, 0, 0, 1, 7, 1, 0, 0, 0}, 9, TUILARDER_SEPARATOR_TOO_LONG},
        {{0x80, 0, 0, 1, 0, 0, 0, 1, 0, 0, 0, 8}, 12, TUILARDER_NOT_TAG_STRING},
        {{0x80, 0, 0, 1, 0, 0, 0, 1, 0, 0, 0, 9}, 12, TUILARDER_NOT_TAG_STRING},
    };
    for (size_t i = 0; i < sizeof strings / sizeof *strings; i++)
        for (size_t k = 0; k < GIVEN; k++)
            check_not_read(FORM_2, strings[i].bytes, strings[i].length, any_given[k], strings[i].number);
}

/* Strings of form 2 that are longer, with tails about 256 behind one word and any bytes: 256 is read where just a word precedes so many; it gets 13 where a
   byte is missing there, where it names all that precedes it, and where it names one byte more. Above it there is 6, whatever precedes it. */
static void test_tails_about_256(void)
{
    static const struct {
        size_t preceding;
        uint8_t tail[4];
        uint32_t number;
    } strings[] = {
        {260, {0, 0, 1, 0}, TUILARDER_ACCEPTED},
        {259, {0, 0, 1, 0}, TUILARDER_NOT_TAG_STRING},
        {256, {0, 0, 1, 0}, TUILARDER_NOT_TAG_STRING},
        {255, {0, 0, 1, 0}, TUILARDER_NOT_TAG_STRING},
        {261, {0, 0, 1, 1}, TUILARDER_SEPARATOR_TOO_LONG},
        {260, {0, 0, 1, 1}, TUILARDER_SEPARATOR_TOO_LONG},
        {257, {0, 0, 1, 1}, TUILARDER_SEPARATOR_TOO_LONG},
        {256, {0, 0, 1, 1}, TUILARDER_SEPARATOR_TOO_LONG},
        {260, {0xff, 0xff, 0xff, 0xff}, TUILARDER_SEPARATOR_TOO_LONG},
    };
    const struct reading longest = {TUILARDER_ACCEPTED, {A | 1}, 1, 4, 256};
    for (size_t i = 0; i < sizeof strings / sizeof *strings; i++) {
        const size_t preceding = strings[i].preceding;
        uint8_t string[265] = {0x80, 0, 0, 1};
        memset(string + 4, 7, preceding - 4);
        memcpy(string + preceding, strings[i].tail, 4);
        for (size_t k = 0; k < GIVEN; k++) {
            if (strings[i].number == TUILARDER_ACCEPTED)
                check_read(FORM_2, string, preceding + 4, any_given[k], &longest);
            else
                check_not_read(FORM_2, string, preceding + 4, any_given[k], strings[i].number);
        }
    }
}

/* The longest tag strings, 64 words that do not merge and 256 bytes: written into as many bytes and not into one less, and read back. */
static void test_longest_tag_string(uint32_t form)
{
    const size_t length = form == FORM_2 ? 516 : 512;
    struct reading read = {TUILARDER_ACCEPTED, {0}, 64, 256, 256};
    uint8_t wanted[516] = {0};
    for (uint32_t k = 0; k < 64; k++) {
        const uint8_t bytes[4] = {k % 2 ? 0x00 : 0x80, 0xf2, 0x03, (uint8_t)k};
        read.words[k] = (k % 2 ? 0x00f20300u : 0x80f20300u) + k;
        memcpy(wanted + 4 * k, bytes, 4);
    }
    for (size_t i = 0; i < 256; i++)
        wanted[256 + i] = (uint8_t)(i * 7 + 1);
    wanted[514] = 1;
    struct lent words = lend_copy(read.words, sizeof read.words), separator = lend_copy(wanted + 256, TUILARDER_MAX_SEPARATOR);
    struct lent string = lend(length, 0);
    size_t number = 1;
    CHECK(tuilarder_write_tag(form, words.part, 64, separator.part, 256, string.part, length - 1, &number) == TUILARDER_BUFFER_TOO_SHORT);
    CHECK(number == 0);
    CHECK(tuilarder_write_tag(form, words.part, 64, separator.part, 256, string.part, length, &number) == TUILARDER_ACCEPTED);
    CHECK(number == length && holds(&string, wanted) && same(&words) && same(&separator));
    check_read(form, wanted, length, 256, &read);
    give_back(&string);
    give_back(&separator);
    give_back(&words);
}

/* Sample B2's two patterns with their separators: one string and one state in form 1, and two in form 2. */
static void test_unequal_lengths(void)
{
    const uint32_t words[4] = {A | 1, 1, A | 2, 2};
    const uint8_t separator[8] = {0x80, 0, 0, 2, 0, 0, 0, 2};
    for (size_t k = 0; k < 2; k++) {
        struct tuilarder_session first, second;
        uint8_t one[20] = {0}, other[20] = {0};
        size_t length = 0, other_length = 0;
        CHECK(tuilarder_start(&first, BABY_BEAR, forms[k], words, 2, separator, 8) == TUILARDER_ACCEPTED);
        CHECK(tuilarder_start(&second, BABY_BEAR, forms[k], words, 4, NULL, 0) == TUILARDER_ACCEPTED);
        CHECK(tuilarder_write_tag(forms[k], words, 2, separator, 8, one, 20, &length) == TUILARDER_ACCEPTED);
        CHECK(tuilarder_write_tag(forms[k], words, 4, NULL, 0, other, 20, &other_length) == TUILARDER_ACCEPTED);
        CHECK(length == (forms[k] == FORM_2 ? 20 : 16) && length == other_length);
        CHECK((memcmp(one, other, 20) == 0) == (forms[k] == FORM_1));
        CHECK((memcmp(first.state, second.state, sizeof first.state) == 0) == (forms[k] == FORM_1));
    }
}

/* Cuts words, which are only read, into calls and a count that nobody has set, and compares all of both. */
static void check_cut(const struct lent *words, uint32_t number, const uint32_t wanted[TUILARDER_MAX_WORDS], size_t wanted_count)
{
    struct lent calls = lend(TUILARDER_MAX_WORDS * sizeof(uint32_t), 0), count = lend(sizeof(size_t), 0);
    CHECK(tuilarder_cut(words->part, words->length / sizeof(uint32_t), calls.part, count.part) == number);
    CHECK(holds(&calls, wanted) && holds(&count, &wanted_count) && same(words));
    give_back(&count);
    give_back(&calls);
}

/* No words, words within the limit, empty ones too, lengths about the limit and about a multiple of it, and several words in order. */
static void test_cut(void)
{
    static const struct {
        uint32_t words[4];
        size_t count;
        uint32_t calls[TUILARDER_MAX_WORDS];
        size_t calls_count;
    } examples[] = {
        {{0}, 0, {0}, 0},
        {{A, 0}, 2, {A, 0}, 2},
        {{A | 1, LIMIT - 1, LIMIT, A | LIMIT}, 4, {A | 1, LIMIT - 1, LIMIT, A | LIMIT}, 4},
        {{LIMIT + 1, A | (LIMIT + 1)}, 2, {LIMIT, 1, A | LIMIT, A | 1}, 4},
        {{A | (2 * LIMIT - 1)}, 1, {A | LIMIT, A | (LIMIT - 1)}, 2},
        {{2 * LIMIT, A | (3 * LIMIT)}, 2, {LIMIT, LIMIT, A | LIMIT, A | LIMIT, A | LIMIT}, 5},
        {{A | (2 * LIMIT + 5), 0, LIMIT + 7, A}, 4, {A | LIMIT, A | LIMIT, A | 5, 0, LIMIT, 7, A}, 7},
    };
    for (size_t i = 0; i < sizeof examples / sizeof *examples; i++) {
        struct lent words = lend_copy(examples[i].words, examples[i].count * sizeof(uint32_t));
        check_cut(&words, TUILARDER_ACCEPTED, examples[i].calls, examples[i].calls_count);
        give_back(&words);
    }
}

/* Lists of one word, so many times: 64 calls suffice, and for one element or one word more they do not, however long the list is. */
static void test_cut_of_copies(void)
{
    static const struct {
        uint32_t word;
        size_t copies;
        uint32_t call;
        size_t calls;
    } examples[] = {
        {7, 64, 7, 64}, {7, 65, 0, 0}, {0, 64, 0, 64}, {0, 65, 0, 0}, {0, 500000, 0, 0},
        {64 * LIMIT, 1, LIMIT, 64}, {64 * LIMIT + 1, 1, 0, 0}, {0x7fffffff, 1, 0, 0}, {0xffffffff, 500000, 0, 0},
        {A | (64 * LIMIT), 1, A | LIMIT, 64}, {A | (64 * LIMIT), 2, 0, 0}, {A | (2 * LIMIT), 32, A | LIMIT, 64},
        {A | (2 * LIMIT), 33, 0, 0}, {A | LIMIT, 64, A | LIMIT, 64}, {A | LIMIT, 65, 0, 0}, {A | (LIMIT + 1), 33, 0, 0},
    };
    for (size_t i = 0; i < sizeof examples / sizeof *examples; i++) {
        uint32_t wanted[TUILARDER_MAX_WORDS] = {0};
        struct lent words = lend(examples[i].copies * sizeof(uint32_t), 0);
        for (size_t k = 0; k < examples[i].copies; k++)
            ((uint32_t *)words.part)[k] = examples[i].word;
        for (size_t k = 0; k < examples[i].calls; k++)
            wanted[k] = examples[i].call;
        remember(&words);
        check_cut(&words, examples[i].calls ? TUILARDER_ACCEPTED : TUILARDER_WORD_COUNT_OUT_OF_RANGE, wanted, examples[i].calls);
        give_back(&words);
    }
}

/* 64 calls of the longest length, of which all absorb or all but the last: START's merged words, the tag string, and that read and cut again. */
static void test_longest_calls(size_t absorbing)
{
    const uint32_t merged[TUILARDER_MAX_WORDS] = {A | ((uint32_t)absorbing * LIMIT), absorbing < 64 ? LIMIT : 0};
    const uint8_t string[8] = {(uint8_t)(0x80 + absorbing), 0, 0, 0, 0x01, 0, 0, 0};
    const size_t phases = absorbing < 64 ? 2 : 1;
    uint32_t declared[TUILARDER_MAX_WORDS], read[TUILARDER_MAX_WORDS];
    struct tuilarder_session session;
    struct lent written = lend(4 * phases, 0), words;
    size_t length, count, start, size;
    for (size_t k = 0; k < TUILARDER_MAX_WORDS; k++)
        declared[k] = k < absorbing ? A | LIMIT : LIMIT;
    CHECK(tuilarder_start(&session, KOALA_BEAR, FORM_1, declared, 64, NULL, 0) == TUILARDER_ACCEPTED);
    CHECK(session.count == phases && memcmp(session.words, merged, sizeof merged) == 0);
    CHECK(tuilarder_write_tag(FORM_1, declared, 64, NULL, 0, written.part, written.length, &length) == TUILARDER_ACCEPTED);
    CHECK(length == written.length && holds(&written, string));
    CHECK(tuilarder_read_tag(FORM_1, written.part, written.length, 0, read, &count, &start, &size) == TUILARDER_ACCEPTED);
    CHECK(count == phases && memcmp(read, merged, sizeof merged) == 0 && start == written.length && size == 0);
    CHECK(tuilarder_start(&session, KOALA_BEAR, FORM_1, read, phases, NULL, 0) == TUILARDER_CALL_TOO_LONG);
    words = lend_copy(read, phases * sizeof(uint32_t));
    check_cut(&words, TUILARDER_ACCEPTED, declared, 64);
    give_back(&words);
    give_back(&written);
}

/* START for a tag string, as the guide shows it. */
static uint32_t start_of_string(struct tuilarder_session *session, uint32_t form, const uint8_t *string, size_t length, size_t separator_length)
{
    uint32_t words[TUILARDER_MAX_WORDS], calls[TUILARDER_MAX_WORDS];
    size_t word_count, call_count, start, count;
    uint32_t number = tuilarder_read_tag(form, string, length, separator_length, words, &word_count, &start, &count);
    if (number == TUILARDER_ACCEPTED)
        number = tuilarder_cut(words, word_count, calls, &call_count);
    if (number == TUILARDER_ACCEPTED)
        number = tuilarder_start(session, TUILARDER_BABY_BEAR, form, calls, call_count, string + start, count);
    return number;
}

/* A phase of 20,000,000 elements, declared as two calls, and the session of its tag string. */
static void test_start_of_string(uint32_t form, size_t size)
{
    const uint32_t declared[3] = {A | 8, 10000000u, 10000000u};
    struct tuilarder_session first, second;
    struct lent string = lend(size, 0);
    size_t length;
    CHECK(tuilarder_start(&first, BABY_BEAR, form, declared, 3, (const uint8_t *)"long", 4) == TUILARDER_ACCEPTED);
    CHECK(tuilarder_write_tag(form, declared, 3, (const uint8_t *)"long", 4, string.part, size, &length) == TUILARDER_ACCEPTED && length == size);
    remember(&string);
    CHECK(start_of_string(&second, form, string.part, size, 4) == TUILARDER_ACCEPTED && same(&string));
    CHECK(memcmp(&first, &second, sizeof first) == 0 && second.words[1] == 20000000u);
    CHECK(start_of_string(&second, form, string.part, size, 5) == (form == FORM_2 ? TUILARDER_ACCEPTED : TUILARDER_NOT_TAG_STRING));
    give_back(&string);
}

/* The longest lengths, which are read, and for which 64 calls do not suffice; so with one element more than 64 calls have, in two words or one. */
static void test_read_and_not_cut(void)
{
    static const uint8_t strings[3][8] = {{0xff, 0xff, 0xff, 0xff, 0x7f, 0xff, 0xff, 0xff}, {0xbf, 0, 0, 1, 0, 0, 0, 1}, {0xc0, 0, 0, 1}};
    static const uint32_t wanted[3][TUILARDER_MAX_WORDS] = {{0xffffffff, 0x7fffffff}, {A | (63 * LIMIT + 1), 1}, {A | (64 * LIMIT + 1)}};
    static const uint32_t zeros[TUILARDER_MAX_WORDS];
    struct tuilarder_session session;
    for (size_t i = 0; i < 3; i++) {
        const size_t phases = i < 2 ? 2 : 1;
        struct reading read = {TUILARDER_ACCEPTED, {wanted[i][0], wanted[i][1]}, phases, 4 * phases, 0};
        struct lent used = lend_copy(wanted[i], phases * sizeof(uint32_t));
        uint8_t string[12] = {0};
        memcpy(string, strings[i], 4 * phases);
        check_read(FORM_1, string, 4 * phases, 0, &read);
        check_read(FORM_2, string, 4 * phases + 4, 0, &read);
        check_cut(&used, TUILARDER_WORD_COUNT_OUT_OF_RANGE, zeros, 0);
        CHECK(start_of_string(&session, FORM_1, string, 4 * phases, 0) == TUILARDER_WORD_COUNT_OUT_OF_RANGE);
        CHECK(start_of_string(&session, FORM_2, string, 4 * phases + 4, 0) == TUILARDER_WORD_COUNT_OUT_OF_RANGE);
        give_back(&used);
    }
}

/* The permutation of 0 to 23 in either field, from the second implementation, in Python. */
static const uint32_t permuted[2][TUILARDER_WIDTH] = {
    {1388997836, 948162243, 1299935936, 1025156667, 515334320, 1361602483, 546021127, 900157588,
     1193585924, 1723824986, 1518293279, 475657192, 4224694, 1309519042, 867247226, 230798774,
     1889843499, 86006077, 1548273803, 983866312, 738482988, 1675543977, 27100451, 609882057},
    {510806392, 1355501408, 1719995572, 2092411216, 1988116991, 488094167, 1203990344, 893373600,
     1465575190, 1079286647, 1569729795, 1908110097, 566821531, 1378116955, 867914127, 1681584149,
     2036892222, 1911071438, 892216489, 814670350, 1841195610, 593412065, 1128049343, 2112072181},
};

static void test_permute(uint32_t field)
{
    struct lent state = lend(sizeof *permuted, 0);
    uint32_t *elements = state.part;
    for (uint32_t i = 0; i < TUILARDER_WIDTH; i++)
        elements[i] = i;
    CHECK(tuilarder_permute(field, elements) == TUILARDER_ACCEPTED);
    CHECK(holds(&state, permuted[field - 1]));
    elements[23] = prime(field);
    remember(&state);
    CHECK(tuilarder_permute(field, elements) == TUILARDER_ELEMENT_NOT_REDUCED);
    CHECK(same(&state));
    elements[23] = BETWEEN;
    remember(&state);
    CHECK(tuilarder_permute(field, elements) == (field == BABY_BEAR ? TUILARDER_ELEMENT_NOT_REDUCED : TUILARDER_ACCEPTED));
    CHECK(same(&state) == (field == BABY_BEAR));
    give_back(&state);
}

/* The state that permutes to 24 zeros in either field, by the inverse of the second implementation. */
static const uint32_t before_zeros[2][TUILARDER_WIDTH] = {
    {119688049, 407817444, 1985088982, 487494322, 1291754670, 95482386, 1512353036, 887100445,
     403268128, 153145235, 1005631413, 503356872, 820655240, 64342335, 341837447, 202843707,
     1161901687, 753088842, 1128987531, 1238770846, 1231273715, 382582037, 1496439753, 1807959},
    {1132660117, 854061719, 265024737, 34255076, 914665117, 81467136, 1675175960, 1844272984,
     262994084, 1967383475, 1833422851, 2051327584, 792652035, 83967665, 823177180, 808956457,
     835273719, 1074488404, 1002893190, 1783228750, 1310706137, 404891972, 814876404, 2078341937},
};

static void test_permute_to_zeros(uint32_t field)
{
    struct lent state = lend_copy(before_zeros[field - 1], sizeof *before_zeros);
    CHECK(tuilarder_permute(field, state.part) == TUILARDER_ACCEPTED);
    CHECK(wiped(&state));
    give_back(&state);
}

/* 18 in an unknown field, before 10, and the state is left. */
static void test_permute_unknown(uint32_t field)
{
    struct lent state = lend(sizeof *permuted, 0);
    memset(state.part, 0, state.length);
    remember(&state);
    CHECK(tuilarder_permute(field, state.part) == TUILARDER_FIELD_UNKNOWN && same(&state));
    memset(state.part, 0xff, state.length);
    remember(&state);
    CHECK(tuilarder_permute(field, state.part) == TUILARDER_FIELD_UNKNOWN && same(&state));
    give_back(&state);
}

/* How many constants either field has, some of them, and the sum of all, from the second implementation. */
static const struct generated {
    size_t count;
    uint32_t first, at_695, at_696, at_743;
    uint64_t sum;
} generated[2] = {
    {696, 262278199, 1255733430, 0, 0, UINT64_C(708767628501)},
    {744, 487143900, 1811673508, 116999280, 570045382, UINT64_C(765939669399)},
};

static void test_generate(uint32_t field)
{
    const struct generated *wanted = &generated[field - 1];
    struct lent places = lend(TUILARDER_MAX_ROUND_CONSTANTS * sizeof(uint32_t), 0), number = lend(sizeof(size_t), 0);
    const uint32_t *constants = places.part;
    uint64_t sum = 0;
    CHECK(tuilarder_generate(field, places.part, number.part) == TUILARDER_ACCEPTED);
    CHECK(holds(&number, &wanted->count) && same_guards(&places));
    CHECK(constants[0] == wanted->first && constants[695] == wanted->at_695);
    CHECK(constants[696] == wanted->at_696 && constants[743] == wanted->at_743);
    for (size_t k = 0; k < TUILARDER_MAX_ROUND_CONSTANTS; k++)
        sum += constants[k];
    CHECK(sum == wanted->sum);
    give_back(&number);
    give_back(&places);
}

/* 18 in an unknown field, with 744 zeros and count 0. */
static void test_generate_unknown(uint32_t field)
{
    struct lent places = lend(TUILARDER_MAX_ROUND_CONSTANTS * sizeof(uint32_t), 0), number = lend(sizeof(size_t), 0);
    fill_random(places.part, places.length);
    fill_random(number.part, number.length);
    CHECK(tuilarder_generate(field, places.part, number.part) == TUILARDER_FIELD_UNKNOWN);
    CHECK(wiped(&places) && wiped(&number));
    give_back(&number);
    give_back(&places);
}

/* SHA3-256 of "abc" and of nothing, from the example values that NIST publishes with FIPS 202. */
static void test_sha3(const uint8_t *nothing)
{
    const uint8_t of_abc[TUILARDER_DIGEST_LENGTH] = {
        0x3a, 0x98, 0x5d, 0xa7, 0x4f, 0xe2, 0x25, 0xb2, 0x04, 0x5c, 0x17, 0x2d, 0x6b, 0xd3, 0x90, 0xbd,
        0x85, 0x5f, 0x08, 0x6e, 0x3e, 0x9d, 0x52, 0x5b, 0x46, 0xbf, 0xe2, 0x45, 0x11, 0x43, 0x15, 0x32};
    const uint8_t of_nothing[TUILARDER_DIGEST_LENGTH] = {
        0xa7, 0xff, 0xc6, 0xf8, 0xbf, 0x1e, 0xd7, 0x66, 0x51, 0xc1, 0x47, 0x56, 0xa0, 0x61, 0xd6, 0x62,
        0xf5, 0x80, 0xff, 0x4d, 0xe4, 0x3b, 0x49, 0xfa, 0x82, 0xd8, 0x0a, 0x4b, 0x80, 0xf8, 0x43, 0x4a};
    struct lent data = lend_copy("abc", 3), digest = lend(TUILARDER_DIGEST_LENGTH, 0);
    tuilarder_sha3_256(data.part, 3, digest.part);
    CHECK(same(&data) && holds(&digest, of_abc));
    tuilarder_sha3_256(nothing, 0, digest.part);
    CHECK(holds(&digest, of_nothing));
    give_back(&digest);
    give_back(&data);
}

/* ---- empty lists */

/* Each list with length 0 at this place, which is NULL or where a block ends. */
static void test_empty(void *place)
{
    const uint32_t words[2] = {A | 1, 1};
    const uint8_t separator[1] = {7};
    uint32_t read[TUILARDER_MAX_WORDS];
    struct lent record = open_record(BABY_BEAR);
    size_t number = 1, start = 1, size = 1;
    CHECK(tuilarder_absorb(record.part, place, 0) == TUILARDER_ACCEPTED && same(&record));
    CHECK(tuilarder_squeeze(record.part, place, 0) == TUILARDER_ACCEPTED && same(&record));
    CHECK(tuilarder_start(record.part, BABY_BEAR, form_beside(BABY_BEAR), words, 2, place, 0) == TUILARDER_ACCEPTED && same(&record));
    CHECK(tuilarder_start(record.part, BABY_BEAR, FORM_1, place, 0, separator, 1) == TUILARDER_WORD_COUNT_OUT_OF_RANGE);
    CHECK(wiped(&record));
    CHECK(tuilarder_absorb(record.part, place, 0) == TUILARDER_RECORD_NOT_OPEN && wiped(&record));
    CHECK(tuilarder_squeeze(record.part, place, 0) == TUILARDER_RECORD_NOT_OPEN && wiped(&record));
    for (size_t k = 0; k < 2; k++) {
        CHECK(tuilarder_write_tag(forms[k], words, 2, place, 0, place, 0, &number) == TUILARDER_BUFFER_TOO_SHORT && number == 0);
        number = 1;
        CHECK(tuilarder_write_tag(forms[k], place, 0, place, 0, place, 0, &number) == TUILARDER_WORD_COUNT_OUT_OF_RANGE && number == 0);
        for (size_t length = 0; length <= 5; length += 5) {
            number = start = size = 1;
            CHECK(tuilarder_read_tag(forms[k], place, 0, length, read, &number, &start, &size) == TUILARDER_NOT_TAG_STRING);
            CHECK(number == 0 && start == 0 && size == 0);
        }
        number = 1;
    }
    CHECK(tuilarder_cut(place, 0, read, &number) == TUILARDER_ACCEPTED && number == 0);
    test_sha3(place);
    give_back(&record);
}

/* ---- bad records */

/* Bytes at random, at times with a field and a form that there are: an element is then bad. */
static void make_random(struct tuilarder_session *record)
{
    fill_random(record, sizeof *record);
    if (next_random() % 2) {
        record->field = fields[below(2)];
        record->form = forms[below(2)];
        record->state[below(TUILARDER_WIDTH)] = bad_element(record->field);
    }
}

/* Small numbers, and a bad element. */
static void make_small(struct tuilarder_session *record)
{
    memset(record, 0, sizeof *record);
    record->field = fields[below(2)];
    record->form = forms[below(2)];
    record->count = below(67);
    for (uint32_t k = 0; k < record->count && k < TUILARDER_MAX_WORDS; k++)
        record->words[k] = (k % 2 ? 0 : A) + 1 + below(4);
    record->phase = below(67);
    record->done = below(6);
    record->absorb_position = below(10);
    record->squeeze_position = below(10);
    record->permutations = below(70);
    record->state[below(TUILARDER_WIDTH)] = bad_element(record->field);
}

/* A record that some calls have left at any place of its pattern, which ends with either kind. */
static void make_sound(struct tuilarder_session *record)
{
    uint32_t words[8], list[20] = {0};
    size_t count = 1 + below(8), phases = below(count + 1);
    for (size_t k = 0; k < count; k++)
        words[k] = (k % 2 ? 0 : A) + 1 + below(20);
    CHECK(tuilarder_start(record, fields[below(2)], forms[below(2)], words, count, NULL, 0) == TUILARDER_ACCEPTED);
    for (size_t k = 0; k < phases; k++) {
        size_t length = words[k] & ~A;
        if (k + 1 == phases)
            length = below(length + 1);
        CHECK((k % 2 ? tuilarder_squeeze(record, list, length) : tuilarder_absorb(record, list, length)) == TUILARDER_ACCEPTED);
    }
}

/* Another number in the place of one that the record's place determines, or of a word or an element what no sound record has. */
static void spoil(struct tuilarder_session *record)
{
    uint32_t used = below(record->count), other = 1 + below(next_random() % 2 ? 9 : UINT32_MAX);
    switch (below(12)) {
    case 0: record->state[below(TUILARDER_WIDTH)] = bad_element(record->field); break;
    case 1: record->words[record->count + below(TUILARDER_MAX_WORDS - record->count)] = other; break;
    case 2: record->words[used] ^= A; break;
    case 3: record->words[used] &= A; break;
    case 4: record->count += other; break;
    case 5: record->phase += other; break;
    case 6: record->done += other; break;
    case 7: record->absorb_position += other; break;
    case 8: record->squeeze_position += other; break;
    case 9: record->field = unknown[below(UNKNOWN)]; break;
    case 10: record->form = unknown[below(UNKNOWN)]; break;
    default: record->permutations += next_random() % 2 ? other : (uint64_t)other << 32; break;
    }
}

/* Bytes at random, small numbers, or a sound record that is spoilt; every other record is open. */
static void make_bad(struct tuilarder_session *record, unsigned round)
{
    switch (round / 4 % 3) {
    case 0: make_random(record); break;
    case 1: make_small(record); break;
    default: make_sound(record); spoil(record); break;
    }
    if (round % 2)
        record->status = 1;
    else if (record->status < 2)
        record->status = 2 * below(UINT64_C(0x80000000));
}

static void test_bad_records(void)
{
    for (unsigned round = 0; round < ROUNDS && failures == 0; round++) {
        size_t behind = round % 4 < 2 ? 0 : GUARD;
        struct lent record = lend(sizeof(struct tuilarder_session), behind);
        struct lent buffer = lend(below(21) * sizeof(uint32_t), behind);
        make_bad(record.part, round);
        fill_random(buffer.part, buffer.length);
        check_all_refuse(&record, &buffer, round % 2 ? TUILARDER_RECORD_NOT_SOUND : TUILARDER_RECORD_NOT_OPEN);
        give_back(&buffer);
        give_back(&record);
        if (failures != 0)
            printf("%s: bad record of round %u, seed 0x%" PRIx64 "\n", __FILE__, round, SEED);
    }
}

/* What is the same in both fields but for p, the constants and what is squeezed. */
static void test_field(uint32_t field)
{
    for (size_t k = 0; k < 2; k++)
        test_members(field, forms[k]);
    test_bad_record(field);
    test_record_of_another_field(field);
    test_record_of_another_form(field);
    test_call_not_in_pattern(field);
    test_element_and_finish(field);
    for (size_t i = 0; i < sizeof endings / sizeof *endings; i++)
        test_ending(field, &endings[i]);
    test_words_of_record(field);
    test_permute(field);
    test_permute_to_zeros(field);
    test_generate(field);
}

int main(void)
{
    struct lent empty = lend(0, 0);
    CHECK(tuilarder_layout_3() == TUILARDER_LAYOUT);
    for (size_t i = 0; i < sizeof samples / sizeof *samples; i++)
        test_sample(&samples[i]);
    for (size_t i = 0; i < sizeof start_examples / sizeof *start_examples; i++)
        test_start(&start_examples[i]);
    for (size_t i = 0; i < 2; i++)
        test_field(fields[i]);
    for (size_t i = 0; i < UNKNOWN; i++) {
        test_permute_unknown(unknown[i]);
        test_generate_unknown(unknown[i]);
    }
    test_write_tag(FORM_1, 10);
    test_write_tag(FORM_2, 14);
    test_read_tag();
    test_read_form_2();
    test_not_read_form_2();
    test_tails_about_256();
    test_longest_tag_string(FORM_1);
    test_longest_tag_string(FORM_2);
    test_unequal_lengths();
    test_cut();
    test_cut_of_copies();
    test_longest_calls(63);
    test_longest_calls(64);
    test_start_of_string(FORM_1, 12);
    test_start_of_string(FORM_2, 16);
    test_read_and_not_cut();
    test_empty(NULL);
    test_empty(empty.part);
    test_bad_records();
    CHECK(same(&empty));
    give_back(&empty);
    return report("sessions");
}
