/*
 * Notes sealed and opened through tuilarder.h: known notes, notes against the calls of a session, every number alone and with each other, changed
 * notes, and lists of no elements. It is meant for valgrind: what is lent ends where its block ends, and what is only written is not set before.
 */
#include "tuilarder.h"

#include "lent.h"

#define A TUILARDER_ABSORB_BIT
#define BABY_BEAR TUILARDER_BABY_BEAR
#define KOALA_BEAR TUILARDER_KOALA_BEAR
#define MOST_ELEMENTS 320
/* "a block length of 0 or above 16,777,216" */
#define LIMIT 16777216u

static uint32_t prime(uint32_t field)
{
    return field == KOALA_BEAR ? TUILARDER_KOALA_BEAR_PRIME : TUILARDER_BABY_BEAR_PRIME;
}

/* ---- calls */

struct list {
    uint32_t items[MOST_ELEMENTS];
    size_t length;
};

/* All that is lent to tuilarder_seal, or where it opens to tuilarder_open, but for the buffer's contents. */
struct call {
    int opens;
    uint32_t field;
    struct list key, nonce;
    uint8_t separator[300];
    size_t separator_length;
    struct list lengths, text;
    size_t out_length;
};

static struct list counted(uint32_t first, size_t length)
{
    struct list list = {{0}, length};
    for (size_t i = 0; i < length; i++)
        list.items[i] = first + (uint32_t)i;
    return list;
}

static size_t total(const struct list *lengths)
{
    size_t sum = 0;
    for (size_t i = 0; i < lengths->length; i++)
        sum += lengths->items[i];
    return sum;
}

/* Sealing 11, 12 .. under the key 1 to 8 and the nonce 9 to 16. */
static struct call sealing(uint32_t field, const uint32_t *lengths, size_t count)
{
    struct call call = {0, field, counted(1, 8), counted(9, 8), "note", 4, {{0}, count}, {{0}, 0}, 0};
    memcpy(call.lengths.items, lengths, count * sizeof *lengths);
    call.text = counted(11, total(&call.lengths));
    call.out_length = call.text.length + 8;
    return call;
}

static struct lent lend_list(const struct list *list)
{
    return lend_copy(list->items, list->length * sizeof *list->items);
}

/* The call, with each list in a block of its own. Gives the number, and the buffer. */
static uint32_t perform(const struct call *call, struct lent *out)
{
    struct lent key = lend_list(&call->key), nonce = lend_list(&call->nonce), lengths = lend_list(&call->lengths), text = lend_list(&call->text);
    struct lent separator = lend_copy(call->separator, call->separator_length);
    uint32_t number = call->opens
        ? tuilarder_open(call->field, key.part, call->key.length, nonce.part, call->nonce.length, separator.part, call->separator_length,
                         lengths.part, call->lengths.length, text.part, call->text.length, out->part, call->out_length)
        : tuilarder_seal(call->field, key.part, call->key.length, nonce.part, call->nonce.length, separator.part, call->separator_length,
                         lengths.part, call->lengths.length, text.part, call->text.length, out->part, call->out_length);
    CHECK(same(&key) && same(&nonce) && same(&separator) && same(&lengths) && same(&text));
    give_back(&separator);
    give_back(&text);
    give_back(&lengths);
    give_back(&nonce);
    give_back(&key);
    return number;
}

/* The call is accepted and leaves this, in places that nobody has set. */
static void check_accepted(const struct call *call, const uint32_t *wanted)
{
    struct lent out = lend(call->out_length * sizeof(uint32_t), 0);
    CHECK(perform(call, &out) == TUILARDER_ACCEPTED);
    CHECK(holds(&out, wanted));
    give_back(&out);
}

/* The call is refused with this number: 21 leaves zeros in every place, and others what was there. */
static void check_refused(const struct call *call, uint32_t number)
{
    struct lent out = lend(call->out_length * sizeof(uint32_t), GUARD);
    memset(out.part, 0x5a, out.length);
    remember(&out);
    CHECK(perform(call, &out) == number);
    CHECK(number == TUILARDER_MARK_DIFFERS ? wiped(&out) : same(&out));
    give_back(&out);
}

/* What opens the list that this call seals. */
static struct call opening(const struct call *call)
{
    struct call other = *call;
    struct lent out = lend(call->out_length * sizeof(uint32_t), 0);
    CHECK(!call->opens && perform(call, &out) == TUILARDER_ACCEPTED);
    memcpy(other.text.items, out.part, out.length);
    other.text.length = call->out_length;
    other.out_length = call->text.length;
    other.opens = 1;
    give_back(&out);
    return other;
}

/* ---- accepted */

/* Notes sealed by the second implementation, in Python. */
static const struct known {
    uint32_t field;
    uint32_t lengths[2];
    size_t count;
    uint32_t sealed[18];
} known[] = {
    {BABY_BEAR, {1, 2}, 2,
     {66389202, 1443427996, 462144109, 1229790208, 1927009522, 1729851417, 732943435, 37725734, 1631910697, 620663441,
      249189492}},
    {BABY_BEAR, {2, 1}, 2,
     {1458194105, 808597398, 217240143, 1981289057, 163452074, 947003184, 803774788, 649466184, 874519142, 369329501,
      1347534137}},
    {BABY_BEAR, {9}, 1,
     {1669906439, 471972643, 187627341, 854946435, 608041471, 483797980, 691322869, 398365688, 830951245, 1149834582,
      572297998, 309910, 1631066130, 1289890704, 6110375, 912306309, 1056122441}},
    {BABY_BEAR, {9, 1}, 2,
     {550408791, 903279468, 254423684, 826791142, 257217250, 1104303597, 1406754955, 1696827935, 518592622, 733245514,
      552523548, 457691081, 733494804, 1778318716, 829302482, 571737381, 1625827255, 1280619531}},
    {KOALA_BEAR, {1, 2}, 2,
     {437837158, 1764386920, 1872267143, 818096143, 2092123784, 1836624386, 964786226, 1651910454, 849010409, 1939835346,
      821863827}},
    {KOALA_BEAR, {2, 1}, 2,
     {59483020, 1288272929, 215622293, 1647812901, 1342362898, 1255961910, 1982735937, 357600814, 901032258, 1270625697,
      1444398871}},
    {KOALA_BEAR, {9}, 1,
     {396590470, 490963093, 1593385622, 209115216, 780103885, 2022305617, 91367327, 2096416230, 1060896227, 703413833,
      636820968, 30168394, 870681582, 984994984, 1464725062, 923938888, 145569694}},
    {KOALA_BEAR, {9, 1}, 2,
     {1215321794, 1496663967, 1974615937, 1724753294, 229828864, 549306614, 907620716, 1856203609, 447542687, 477525497,
      678823289, 680769679, 510462405, 610618898, 268465420, 2099281940, 1168335565, 313175998}},
};

static void test_known(const struct known *note)
{
    struct call call = sealing(note->field, note->lengths, note->count), reversed;
    check_accepted(&call, note->sealed);
    reversed = opening(&call);
    CHECK(memcmp(reversed.text.items, note->sealed, reversed.text.length * sizeof(uint32_t)) == 0);
    check_accepted(&reversed, call.text.items);
}

/* Algorithm 7 by the calls of a session, which is of form 1: gives the sealed list. */
static void seal_by_calls(const struct call *call, uint32_t *sealed)
{
    uint32_t words[TUILARDER_MAX_WORDS] = {A | 16};
    const uint32_t *plain = call->text.items;
    size_t count = 1;
    struct tuilarder_session session;
    for (size_t i = 0; i < call->lengths.length; i++) {
        words[count++] = call->lengths.items[i];
        words[count++] = A | call->lengths.items[i];
    }
    words[count++] = 8;
    CHECK(tuilarder_start(&session, call->field, TUILARDER_FORM_1, words, count, call->separator, call->separator_length) == TUILARDER_ACCEPTED);
    CHECK(tuilarder_absorb(&session, call->key.items, 8) == TUILARDER_ACCEPTED);
    CHECK(tuilarder_absorb(&session, call->nonce.items, 8) == TUILARDER_ACCEPTED);
    for (size_t i = 0; i < call->lengths.length; i++) {
        size_t length = call->lengths.items[i];
        CHECK(tuilarder_squeeze(&session, sealed, length) == TUILARDER_ACCEPTED);
        CHECK(tuilarder_absorb(&session, plain, length) == TUILARDER_ACCEPTED);
        for (size_t k = 0; k < length; k++)
            sealed[k] = (uint32_t)(((uint64_t)sealed[k] + plain[k]) % prime(call->field));
        sealed += length;
        plain += length;
    }
    CHECK(tuilarder_squeeze(&session, sealed, 8) == TUILARDER_ACCEPTED);
    CHECK(tuilarder_finish(&session) == TUILARDER_ACCEPTED);
}

/* A note is what the calls of a session seal, and opens to what it was. */
static void test_note(const struct call *call)
{
    uint32_t sealed[MOST_ELEMENTS] = {0};
    struct call reversed;
    seal_by_calls(call, sealed);
    check_accepted(call, sealed);
    reversed = opening(call);
    check_accepted(&reversed, call->text.items);
}

/* One block of each length about the rate, two of them, 3, 17 and 31; separators of 0 and 256 bytes; the least and the largest element everywhere. */
static void test_notes(uint32_t field)
{
    static const uint32_t about[] = {1, 7, 8, 9, 16};
    uint32_t many[TUILARDER_MAX_NOTE_BLOCKS];
    struct call call;
    for (size_t i = 0; i < 5; i++) {
        call = sealing(field, about + i, 1);
        test_note(&call);
        for (size_t k = 0; k < 5; k++) {
            const uint32_t lengths[2] = {about[i], about[k]};
            call = sealing(field, lengths, 2);
            test_note(&call);
        }
    }
    for (size_t count = 3; count <= TUILARDER_MAX_NOTE_BLOCKS; count += 14) {
        for (size_t i = 0; i < count; i++)
            many[i] = about[(i + count) % 5];
        call = sealing(field, many, count);
        test_note(&call);
    }
    for (size_t length = 0; length <= 256; length += 256) {
        call = sealing(field, about, 2);
        memset(call.separator, 7, length);
        call.separator_length = length;
        test_note(&call);
    }
    for (uint32_t element = 0; element <= prime(field) - 1; element += prime(field) - 1) {
        call = sealing(field, about, 2);
        for (size_t i = 0; i < 8; i++)
            call.key.items[i] = call.nonce.items[i] = call.text.items[i] = element;
        test_note(&call);
    }
}

/* ---- changed */

static void change(uint32_t *element, uint32_t field, uint32_t step)
{
    *element = (uint32_t)(((uint64_t)*element + step) % prime(field));
}

/* Each element of the cipher and of the mark, of the key and of the nonce, one more and one less. */
static void test_changed_elements(uint32_t field, const uint32_t *lengths, size_t count)
{
    struct call note = sealing(field, lengths, count), good = opening(&note);
    for (uint32_t step = 1; step < prime(field); step += prime(field) - 2) {
        for (size_t i = 0; i < good.text.length; i++) {
            struct call changed = good;
            change(&changed.text.items[i], field, step);
            check_refused(&changed, TUILARDER_MARK_DIFFERS);
        }
        for (size_t i = 0; i < 8; i++) {
            struct call key = good, nonce = good;
            change(&key.key.items[i], field, step);
            check_refused(&key, TUILARDER_MARK_DIFFERS);
            change(&nonce.nonce.items[i], field, step);
            check_refused(&nonce, TUILARDER_MARK_DIFFERS);
        }
    }
}

/* The same elements in other blocks, another separator, and the other field, of which the small ones are elements too. */
static void test_changed_inputs(uint32_t field)
{
    static const uint32_t cuts[][4] = {{8, 4}, {4, 8}, {12}, {1, 11}, {7, 5}, {4, 4, 4}, {8, 3, 1}};
    static const size_t counts[] = {2, 2, 1, 2, 2, 3, 3};
    static const char *const separators[] = {"", "not", "nota", "notes"};
    struct call note = sealing(field, cuts[0], 2), good = opening(&note), changed;
    for (size_t i = 1; i < sizeof counts / sizeof *counts; i++) {
        changed = good;
        memcpy(changed.lengths.items, cuts[i], sizeof cuts[i]);
        changed.lengths.length = counts[i];
        check_refused(&changed, TUILARDER_MARK_DIFFERS);
    }
    for (size_t i = 0; i < 4; i++) {
        changed = good;
        changed.separator_length = strlen(separators[i]);
        memcpy(changed.separator, separators[i], changed.separator_length);
        check_refused(&changed, TUILARDER_MARK_DIFFERS);
    }
    changed = good;
    for (size_t i = 0; i < changed.text.length; i++)
        changed.text.items[i] %= TUILARDER_BABY_BEAR_PRIME;
    changed.field = 3 - field;
    check_refused(&changed, TUILARDER_MARK_DIFFERS);
}

/* Two notes of one nonce whose second blocks differ: the first cipher blocks are equal, and the second ones differ as the notes do. */
static void test_nonce_twice(uint32_t field)
{
    static const uint32_t lengths[3] = {3, 9, 2};
    struct call one = sealing(field, lengths, 3), other = one;
    for (size_t i = 3; i < 12; i++)
        change(&other.text.items[i], field, 1000 + (uint32_t)i);
    one = opening(&one);
    other = opening(&other);
    CHECK(memcmp(one.text.items, other.text.items, 3 * sizeof(uint32_t)) == 0);
    for (size_t i = 3; i < 12; i++) {
        change(&one.text.items[i], field, 1000 + (uint32_t)i);
        CHECK(one.text.items[i] == other.text.items[i]);
    }
    CHECK(memcmp(one.text.items + 14, other.text.items + 14, 8 * sizeof(uint32_t)) != 0);
}

/* ---- refused */

static void unknown_field(struct call *call) { call->field = 0; }
static void third_field(struct call *call) { call->field = 3; }
static void long_separator(struct call *call) { call->separator_length = 257; }
static void no_lengths(struct call *call) { call->lengths.length = 0; }

static void many_lengths(struct call *call)
{
    call->lengths = counted(1, 32);
}

static void empty_block(struct call *call) { call->lengths.items[call->lengths.length++] = 0; }
static void more_blocks(struct call *call) { call->lengths.items[call->lengths.length++] = 1; }
static void long_block(struct call *call) { call->lengths.items[0] = LIMIT + 1; }
static void longest_block(struct call *call) { call->lengths.items[0] = LIMIT; }
static void huge_blocks(struct call *call) { call->lengths.items[0] = call->lengths.items[1] = UINT32_MAX; }
static void short_key(struct call *call) { call->key.length = 6; }
static void long_key(struct call *call) { call->key.length++; }
static void short_nonce(struct call *call) { call->nonce.length = 6; }
static void long_nonce(struct call *call) { call->nonce.length++; }
static void short_text(struct call *call) { call->text.length = 1; }
static void long_text(struct call *call) { call->text.length++; }
static void short_out(struct call *call) { call->out_length = 1; }
static void long_out(struct call *call) { call->out_length++; }
static void bad_key(struct call *call) { call->key.items[0] = TUILARDER_KOALA_BEAR_PRIME; }
static void bad_nonce(struct call *call) { call->nonce.items[5] = UINT32_MAX; }
static void bad_text(struct call *call) { call->text.items[0] = TUILARDER_KOALA_BEAR_PRIME; }
static void bad_last(struct call *call) { call->text.items[call->text.length - 1] = UINT32_MAX; }
static void other_mark(struct call *call) { call->text.items[11] = 1; }

static const struct fault {
    uint32_t number;
    void (*make)(struct call *call);
} faults[] = {
    {TUILARDER_FIELD_UNKNOWN, unknown_field}, {TUILARDER_FIELD_UNKNOWN, third_field}, {TUILARDER_SEPARATOR_TOO_LONG, long_separator},
    {TUILARDER_SEAL_LENGTH_INVALID, no_lengths}, {TUILARDER_SEAL_LENGTH_INVALID, many_lengths}, {TUILARDER_SEAL_LENGTH_INVALID, empty_block},
    {TUILARDER_SEAL_LENGTH_INVALID, more_blocks}, {TUILARDER_SEAL_LENGTH_INVALID, long_block}, {TUILARDER_SEAL_LENGTH_INVALID, longest_block},
    {TUILARDER_SEAL_LENGTH_INVALID, huge_blocks}, {TUILARDER_SEAL_LENGTH_INVALID, short_key}, {TUILARDER_SEAL_LENGTH_INVALID, long_key},
    {TUILARDER_SEAL_LENGTH_INVALID, short_nonce}, {TUILARDER_SEAL_LENGTH_INVALID, long_nonce}, {TUILARDER_SEAL_LENGTH_INVALID, short_text},
    {TUILARDER_SEAL_LENGTH_INVALID, long_text}, {TUILARDER_SEAL_LENGTH_INVALID, short_out}, {TUILARDER_SEAL_LENGTH_INVALID, long_out},
    {TUILARDER_ELEMENT_NOT_REDUCED, bad_key}, {TUILARDER_ELEMENT_NOT_REDUCED, bad_nonce}, {TUILARDER_ELEMENT_NOT_REDUCED, bad_text},
    {TUILARDER_ELEMENT_NOT_REDUCED, bad_last}, {TUILARDER_MARK_DIFFERS, other_mark},
};
#define FAULTS (sizeof faults / sizeof *faults)

/* Where in "after START's own 18 and 6, before 10" and "21: the mark differs, last" a number stands. */
static size_t rank(uint32_t number)
{
    static const uint32_t order[] = {18, 6, 20, 10, 21};
    size_t place = 0;
    while (order[place] != number)
        place++;
    return place;
}

/* Each fault, and behind it each other one: the number that is checked first counts. The last fault is one of the mark, which sealing has not. */
static void test_faults(const struct call *good)
{
    size_t count = good->opens ? FAULTS : FAULTS - 1;
    for (size_t i = 0; i < count; i++) {
        for (size_t k = 0; k < count; k++) {
            struct call call = *good;
            unsigned long before = failures;
            faults[i].make(&call);
            if (k != i)
                faults[k].make(&call);
            check_refused(&call, rank(faults[i].number) < rank(faults[k].number) ? faults[i].number : faults[k].number);
            if (failures != before)
                printf("    faults %zu and %zu, %s\n", i, k, good->opens ? "opening" : "sealing");
        }
    }
}

/* 20 for 32 blocks with all else exact for them, or for the first 31, and for lengths whose sum is right in 32 bits. */
static void test_lengths(uint32_t field)
{
    static const uint32_t wrapping[][3] = {{UINT32_MAX, 4, 0}, {A, A, 3}, {3 | A, A, 0}, {LIMIT + 3, 0, 0}};
    static const size_t counts[] = {2, 3, 2, 1};
    uint32_t ones[32];
    struct call call;
    for (size_t i = 0; i < 32; i++)
        ones[i] = 1;
    call = sealing(field, ones, 32);
    check_refused(&call, TUILARDER_SEAL_LENGTH_INVALID);
    call.text.length = 31;
    call.out_length = 39;
    check_refused(&call, TUILARDER_SEAL_LENGTH_INVALID);
    call.opens = 1;
    call.text.length = 40;
    call.out_length = 32;
    check_refused(&call, TUILARDER_SEAL_LENGTH_INVALID);
    for (size_t i = 0; i < 4; i++) {
        call = sealing(field, ones, 3);
        memcpy(call.lengths.items, wrapping[i], sizeof wrapping[i]);
        call.lengths.length = counts[i];
        check_refused(&call, TUILARDER_SEAL_LENGTH_INVALID);
    }
}

/* Elements of KoalaBear that are none of BabyBear, in each list. */
static void test_between_primes(void)
{
    static const uint32_t lengths[2] = {1, 2};
    for (uint32_t field = BABY_BEAR; field <= KOALA_BEAR; field++) {
        for (size_t list = 0; list < 3; list++) {
            struct call call = sealing(field, lengths, 2);
            (list == 0 ? &call.key : list == 1 ? &call.nonce : &call.text)->items[2] = TUILARDER_BABY_BEAR_PRIME;
            if (field == KOALA_BEAR)
                test_note(&call);
            else
                check_refused(&call, TUILARDER_ELEMENT_NOT_REDUCED);
        }
    }
}

/* Every list with length 0 at this place, which is NULL or where a block ends. */
static void test_empty(void *place)
{
    const uint32_t ones[8] = {1, 1, 1, 1, 1, 1, 1, 1};
    uint32_t out[9];
    CHECK(tuilarder_seal(1, place, 0, place, 0, place, 0, place, 0, place, 0, place, 0) == TUILARDER_SEAL_LENGTH_INVALID);
    CHECK(tuilarder_open(1, place, 0, place, 0, place, 0, place, 0, place, 0, place, 0) == TUILARDER_SEAL_LENGTH_INVALID);
    CHECK(tuilarder_seal(0, place, 0, place, 0, place, 0, place, 0, place, 0, place, 0) == TUILARDER_FIELD_UNKNOWN);
    CHECK(tuilarder_open(3, place, 0, place, 0, place, 0, place, 0, place, 0, place, 0) == TUILARDER_FIELD_UNKNOWN);
    CHECK(tuilarder_open(1, ones, 8, ones, 8, place, 0, ones, 1, ones, 8, place, 0) == TUILARDER_SEAL_LENGTH_INVALID);
    CHECK(tuilarder_seal(1, ones, 8, ones, 8, place, 0, ones, 1, place, 0, place, 0) == TUILARDER_SEAL_LENGTH_INVALID);
    CHECK(tuilarder_seal(1, ones, 8, ones, 8, place, 0, ones, 1, ones, 1, out, 9) == TUILARDER_ACCEPTED);
}

int main(void)
{
    static const uint32_t lengths[] = {2, 3}, long_lengths[] = {1, 9, 8};
    struct lent empty = lend(0, 0);
    for (size_t i = 0; i < sizeof known / sizeof *known; i++)
        test_known(&known[i]);
    for (uint32_t field = BABY_BEAR; field <= KOALA_BEAR; field++) {
        /* the mark of the list that is opened begins at its sixth place */
        struct call seal = sealing(field, lengths, 2), open = opening(&seal);
        test_notes(field);
        test_changed_elements(field, lengths, 1);
        test_changed_elements(field, long_lengths, 3);
        test_changed_inputs(field);
        test_nonce_twice(field);
        test_faults(&seal);
        test_faults(&open);
        test_lengths(field);
    }
    test_between_primes();
    test_empty(NULL);
    test_empty(empty.part);
    CHECK(same(&empty));
    give_back(&empty);
    return report("notes");
}
