// Calls every function of the static library from C++: a program links only where the header gives them C's names.
#include "tuilarder.h"

#include <cstdio>
#include <cstring>

static bool failed = false;

#define CHECK(condition) check(condition, __LINE__, #condition)

static void check(bool holds, int line, const char *what)
{
    if (!holds) {
        failed = true;
        std::printf("%s:%d: %s\n", __FILE__, line, what);
    }
}

// Sample B4 in a field and a form, with 1 to 8 absorbed. The element squeezed is from the second implementation, in Python.
static void test_session(uint32_t field, uint32_t form, uint32_t wanted)
{
    const uint32_t words[2] = {TUILARDER_ABSORB_BIT | 8, 1}, elements[8] = {1, 2, 3, 4, 5, 6, 7, 8};
    tuilarder_session session;
    uint32_t challenge = 0;
    CHECK(tuilarder_start(&session, field, form, words, 2, nullptr, 0) == TUILARDER_ACCEPTED);
    CHECK(session.field == field && session.form == form);
    CHECK(tuilarder_absorb(&session, elements, 8) == TUILARDER_ACCEPTED);
    CHECK(tuilarder_squeeze(&session, &challenge, 1) == TUILARDER_ACCEPTED);
    CHECK(challenge == wanted && session.permutations == 1);
    CHECK(tuilarder_finish(&session) == TUILARDER_ACCEPTED);
    CHECK(session.status == 0 && session.field == 0 && session.form == 0);
}

// Sample B1 in a form.
static void test_tag_string(uint32_t form, std::size_t size)
{
    const uint32_t words[3] = {0x80000003, 0x80000003, 0x00000003};
    const uint8_t separator[2] = {0x41, 0x42}, wanted[14] = {0x80, 0, 0, 6, 0, 0, 0, 3, 0x41, 0x42, 0, 0, 0, 2};
    uint8_t string[TUILARDER_MAX_TAG_STRING];
    uint32_t merged[TUILARDER_MAX_WORDS];
    std::size_t length = 0, count = 0, start = 0, separator_count = 0;
    CHECK(tuilarder_write_tag(form, words, 3, separator, 2, string, sizeof string, &length) == TUILARDER_ACCEPTED);
    CHECK(length == size && std::memcmp(string, wanted, size) == 0);
    CHECK(tuilarder_read_tag(form, string, length, 2, merged, &count, &start, &separator_count) == TUILARDER_ACCEPTED);
    CHECK(count == 2 && merged[0] == 0x80000006 && merged[1] == 0x00000003 && merged[2] == 0);
    CHECK(start == 8 && separator_count == 2);
    CHECK(tuilarder_read_tag(3, string, length, 2, merged, &count, &start, &separator_count) == TUILARDER_FORM_UNKNOWN);
    CHECK(count == 0 && merged[0] == 0 && start == length && separator_count == 0);
}

// A word that is one longer than a declared call.
static void test_cut()
{
    const uint32_t words[1] = {TUILARDER_ABSORB_BIT | (TUILARDER_MAX_CALL + 1)};
    uint32_t calls[TUILARDER_MAX_WORDS];
    std::size_t count = 0;
    CHECK(tuilarder_cut(words, 1, calls, &count) == TUILARDER_ACCEPTED);
    CHECK(count == 2 && calls[0] == 0x81000000 && calls[1] == 0x80000001 && calls[2] == 0);
}

// 18, and 10 for BabyBear's p, which is an element of KoalaBear; how many constants there are; and the first bytes of the digest of nothing that
// NIST publishes.
static void test_permutation_and_hash()
{
    uint32_t state[TUILARDER_WIDTH] = {2013265921}, constants[TUILARDER_MAX_ROUND_CONSTANTS];
    uint8_t digest[TUILARDER_DIGEST_LENGTH];
    std::size_t count = 0;
    CHECK(tuilarder_permute(0, state) == TUILARDER_FIELD_UNKNOWN);
    CHECK(tuilarder_permute(TUILARDER_BABY_BEAR, state) == TUILARDER_ELEMENT_NOT_REDUCED);
    CHECK(tuilarder_permute(TUILARDER_KOALA_BEAR, state) == TUILARDER_ACCEPTED);
    CHECK(tuilarder_generate(TUILARDER_BABY_BEAR, constants, &count) == TUILARDER_ACCEPTED && count == 696);
    CHECK(tuilarder_generate(3, constants, &count) == TUILARDER_FIELD_UNKNOWN && count == 0);
    tuilarder_sha3_256(nullptr, 0, digest);
    CHECK(digest[0] == 0xa7 && digest[1] == 0xff && digest[2] == 0xc6);
}

// Two rows: up to 0x7fffffff of line 1, and from there on of line 2.
static void test_owners()
{
    const uint8_t table[20] = {0, 0, 0, 0, 0x7f, 0xff, 0xff, 0xff, 0, 1, 0x80, 0, 0, 0, 0xff, 0xff, 0xff, 0xff, 0, 2};
    const uint8_t separator[4] = {0x80, 0, 0, 0};
    uint32_t place = 1, value = 0;
    CHECK(tuilarder_check_owners(table, 20, &place) == TUILARDER_ACCEPTED && place == 0);
    CHECK(tuilarder_check_owners(table, 10, &place) == TUILARDER_OWNERS_GAP && place == 0x80000000);
    CHECK(tuilarder_owner(table, 20, separator, 4, &value) == TUILARDER_ACCEPTED && value == 2);
}

// A note of one block, sealed and opened; with another nonce it does not open.
static void test_notes()
{
    const uint32_t key[TUILARDER_KEY_LENGTH] = {1}, nonce[TUILARDER_NONCE_LENGTH] = {2}, lengths[1] = {2}, plain[2] = {3, 4};
    uint32_t sealed[2 + TUILARDER_MARK_LENGTH], opened[2] = {0, 0};
    CHECK(tuilarder_seal(TUILARDER_BABY_BEAR, key, 8, nonce, 8, nullptr, 0, lengths, 1, plain, 2, sealed, 10) == TUILARDER_ACCEPTED);
    CHECK(tuilarder_open(TUILARDER_BABY_BEAR, key, 8, nonce, 8, nullptr, 0, lengths, 1, sealed, 10, opened, 2) == TUILARDER_ACCEPTED);
    CHECK(opened[0] == 3 && opened[1] == 4);
    CHECK(tuilarder_open(TUILARDER_BABY_BEAR, key, 8, key, 8, nullptr, 0, lengths, 1, sealed, 10, opened, 2) == TUILARDER_MARK_DIFFERS);
    CHECK(opened[0] == 0 && opened[1] == 0);
}

int main()
{
    CHECK(tuilarder_layout_3() == TUILARDER_LAYOUT);
    test_session(TUILARDER_BABY_BEAR, TUILARDER_FORM_1, 1413794352);
    test_session(TUILARDER_KOALA_BEAR, TUILARDER_FORM_1, 660617525);
    test_session(TUILARDER_BABY_BEAR, TUILARDER_FORM_2, 870047549);
    test_session(TUILARDER_KOALA_BEAR, TUILARDER_FORM_2, 138808816);
    test_tag_string(TUILARDER_FORM_1, 10);
    test_tag_string(TUILARDER_FORM_2, 14);
    test_cut();
    test_permutation_and_hash();
    test_owners();
    test_notes();
    return failed;
}
