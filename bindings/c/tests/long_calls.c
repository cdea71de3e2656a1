/*
 * Calls longer than a pattern may declare. "Calls are counted against the merged phase, so they may be cut freely
 * inside it": words of 16,777,216 elements merge to a phase that is twice as long, and one call may be all of it. A
 * session in two calls, one of 33,554,432 elements for each phase, is compared with one in four. Too slow for valgrind;
 * the two sessions run at once.
 */
#include "tuilarder.h"

#include "lent.h"

#include <pthread.h>

#define A TUILARDER_ABSORB_BIT
#define P TUILARDER_BABY_BEAR_PRIME
/* "limits one declared call to 16,777,216 elements" */
#define DECLARED 16777216u
#define PHASE (2 * (size_t)DECLARED)

static uint32_t *elements;

/* How each phase is cut into calls; then what the calls leave, and the sum of the numbers that they answer with. */
struct run {
    size_t calls[2];
    uint32_t *squeezed, numbers;
    struct tuilarder_session started, absorbed, done, finished;
};

static void *session_of(void *argument)
{
    const uint32_t words[4] = {A | DECLARED, A | DECLARED, DECLARED, DECLARED};
    struct run *run = argument;
    struct tuilarder_session session;
    size_t first = run->calls[0], second = run->calls[1];
    run->numbers = tuilarder_start(&session, TUILARDER_BABY_BEAR, TUILARDER_FORM_2, words, 4, NULL, 0);
    run->started = session;
    run->numbers += tuilarder_absorb(&session, elements, first);
    if (second != 0)
        run->numbers += tuilarder_absorb(&session, elements + first, second);
    run->absorbed = session;
    run->numbers += tuilarder_squeeze(&session, run->squeezed, first);
    if (second != 0)
        run->numbers += tuilarder_squeeze(&session, run->squeezed + first, second);
    run->done = session;
    run->numbers += tuilarder_finish(&session);
    run->finished = session;
    return NULL;
}

/* The record is at the start of this phase, after so many permutations. */
static int at_phase(const struct tuilarder_session *session, uint32_t phase, uint64_t permutations)
{
    return session->status == 1 && session->phase == phase && session->done == 0
        && session->permutations == permutations;
}

static uint32_t *list(void)
{
    return (uint32_t *)(void *)allocate(PHASE * sizeof(uint32_t));
}

int main(void)
{
    const struct tuilarder_session wiped_record = {0};
    /* the first part is over what a pattern may declare, and no multiple of the rate */
    struct run whole = {.calls = {PHASE, 0}, .squeezed = list()};
    struct run parts = {.calls = {DECLARED + 1, DECLARED - 1}, .squeezed = list()};
    pthread_t thread;
    elements = list();
    /* all unlike each other but for p - 1, which stands in every 1009th place */
    for (size_t i = 0; i < PHASE; i++)
        elements[i] = i % 1009 == 0 ? P - 1 : (uint32_t)i * 59 + 1;
    CHECK(pthread_create(&thread, NULL, session_of, &parts) == 0);
    session_of(&whole);
    CHECK(pthread_join(thread, NULL) == 0);

    CHECK(whole.numbers == TUILARDER_ACCEPTED && parts.numbers == TUILARDER_ACCEPTED);
    CHECK(whole.started.count == 2 && whole.started.words[0] == (A | PHASE) && whole.started.words[1] == PHASE);
    /* "absorb, 0 if d = 0, else ceil(d/8) - 1; squeeze, ceil(d/8)" */
    CHECK(at_phase(&whole.absorbed, 1, PHASE / 8 - 1));
    CHECK(memcmp(&whole.absorbed, &parts.absorbed, sizeof whole.absorbed) == 0);
    CHECK(at_phase(&whole.done, 2, PHASE / 8 - 1 + PHASE / 8));
    CHECK(memcmp(&whole.done, &parts.done, sizeof whole.done) == 0);
    CHECK(memcmp(whole.squeezed, parts.squeezed, PHASE * sizeof *elements) == 0);
    CHECK(memcmp(&whole.finished, &wiped_record, sizeof wiped_record) == 0);
    CHECK(memcmp(&parts.finished, &wiped_record, sizeof wiped_record) == 0);
    free(elements);
    free(whole.squeezed);
    free(parts.squeezed);
    return report("long calls");
}
