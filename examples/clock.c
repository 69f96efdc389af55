/*
 * A router by its board's clock, 32 bits of milliseconds, which wraps ten seconds after the router is switched on. No network answers: T3510 is out five times, behind it T3511 four
 * times, then T3502. The next attempt is taken, and the router is to call in after 413 days; the clock wraps eight times more till then.
 * All that firmware does: arm the deadlines behind each event, ask in rounds, and sleep between them for as long as the library says, so that no timer is late. Each line has the true
 * time and the clock.
 */
#include <inttypes.h>
#include <stdio.h>
#include "tjernfaug.h"

static struct tjernfaug_record record;
static struct tjernfaug_deadlines deadlines;
static uint8_t body[TJERNFAUG_LONGEST_CARD];
static uint64_t passed;

static uint32_t clock_now(void)
{
    return (uint32_t)(passed - 10000);
}

static void line(const char *what, const char *more)
{
    printf("%8" PRIu64 ".%03u s, clock %10" PRIu32 ": %s%s\n", passed / 1000, (unsigned)(passed % 1000), clock_now(), what, more);
}

static void started(const struct tjernfaug_notice *notice)
{
    for (uint32_t slot = 0; slot < TJERNFAUG_SLOTS; slot++)
        if (tjernfaug_timer_of(notice, slot).told == TJERNFAUG_TOLD_STARTED)
            printf("%37s%s for %" PRIu32 " s\n", "", tjernfaug_slot_name(slot), tjernfaug_timer_of(notice, slot).seconds);
}

static void hand(uint32_t kind, uint64_t len)
{
    struct tjernfaug_notice notice;
    line(tjernfaug_kind_name(kind), tjernfaug_event(&record, kind, body, len, &notice) == TJERNFAUG_ANSWER_TAKEN ? "" : ", refused");
    started(&notice);
    tjernfaug_arm(&deadlines, clock_now(), &notice);
}

static void start(void)
{
    hand(TJERNFAUG_KIND_START, tjernfaug_body_start(0, 0, tjernfaug_network(1, 1, 2), 0x2A, body, sizeof body));
}

/* A round at the clock's time, and what it asks for: whether the timer of this slot is out. */
static int out(uint32_t slot)
{
    static struct tjernfaug_ran ran[TJERNFAUG_MOST_RAN];
    int found = 0;
    const uint32_t count = tjernfaug_round(&record, &deadlines, clock_now(), ran, TJERNFAUG_MOST_RAN * TJERNFAUG_RAN_WORDS);
    for (uint32_t i = 0; i < count && count <= TJERNFAUG_MOST_RAN; i++) {
        line(tjernfaug_slot_name(ran[i].slot), " is out");
        started(&ran[i].notice);
        if (ran[i].notice.restart != 0)
            start();
        found |= ran[i].slot == slot;
    }
    return found;
}

/* Sleeps, and a round behind each, until the timer of this slot is out. */
static void live(uint32_t slot)
{
    do passed += tjernfaug_wait(&deadlines, clock_now()); while (!out(slot));
}

int main(void)
{
    const uint8_t capability[] = {0x00}, security[] = {0xF0, 0xF0}, suci[] = {0x01, 0x00, 0xF1, 0x10, 0xF0, 0xFF, 0x00, 0x00, 0x07};
    const uint8_t accept[] = {0x7E, 0x00, 0x42, 0x01, 0x01, 0x5E, 0x01, 0xDF};                    /* T3512: 31 times 320 hours */
    if (tjernfaug_version() != TJERNFAUG_VERSION ||
        tjernfaug_new(&record, 3, 3, 3, capability, sizeof capability, security, sizeof security) != TJERNFAUG_ANSWER_TAKEN)
        return 1;
    hand(TJERNFAUG_KIND_CARD, tjernfaug_body_card(tjernfaug_network(1, 1, 2), suci, sizeof suci, body, sizeof body));
    start();
    live(TJERNFAUG_T3502_0);
    hand(TJERNFAUG_KIND_MESSAGE_DRAWS, tjernfaug_body_message_draws(0, 1, 1800, 900, accept, sizeof accept, body, sizeof body));
    live(TJERNFAUG_T3512);
    return 0;
}
