/*
 * The example of docs/FIRMWARE.md's "Timers", which tests/c/run takes from the page as page.h, with a clock and what it calls. A device without an answer: T3510 runs out, and just ten
 * seconds later T3511, which asks to try again. A reject: T3247 runs out; an accept: T3512 does. Then the table is lost, and the next round but one is taken again.
 */
#include <stdio.h>
#include <string.h>
#include "tjernfaug.h"

/* The clock, about to wrap, the time at which it is woken up, and how often each slot was logged and each call made. */
static uint32_t passing = UINT32_MAX - 20000, waking, logged[TJERNFAUG_SLOTS], released, tried, looked, called;

static uint32_t clock_ms(void) { return passing; }
static void sleep_ms(uint32_t ms) { passing += ms < waking - passing ? ms : waking - passing; }
static void log_timer(uint32_t slot) { logged[slot]++; }
static void release(uint32_t access) { released += access == 0; }
static void try_again(uint32_t access) { tried += access == 0; }
static void look_around(void) { looked++; }
static void call_in(void) { called++; }

#include "page.h"

static uint8_t body[TJERNFAUG_LONGEST_CARD];

/* The time goes on by so many seconds, with a round at their end. It is woken up then, and has slept ten times at most. */
static void pass(uint32_t seconds)
{
    waking = passing + 1000 * seconds;
    for (uint32_t sleeps = 0; sleeps < 10 && passing != waking; sleeps++)
        rest();
    run_timers();
}

static int start(void)
{
    return hand(TJERNFAUG_KIND_START, body, tjernfaug_body_start(0, 0, tjernfaug_network(2, 2, 2), 0x2A, body, sizeof body)) == TJERNFAUG_ANSWER_TAKEN;
}

static int heard(uint8_t protection, const uint8_t *msg, uint64_t len)
{
    return hand(TJERNFAUG_KIND_MESSAGE_DRAWS, body, tjernfaug_body_message_draws(0, protection, 1800, 900, msg, len, body, sizeof body)) == TJERNFAUG_ANSWER_TAKEN;
}

int main(void)
{
    static const uint8_t capability[] = {0x00}, security[] = {0xF0, 0xF0}, suci[] = {0x01, 0x00, 0xF1, 0x10, 0xF0, 0xFF, 0x00, 0x00, 0x07};
    static const uint8_t reject[] = {0x7E, 0x00, 0x44, 0x0B}, accept[] = {0x7E, 0x00, 0x42, 0x01, 0x01};
    int right = tjernfaug_new(&record, 3, 3, 3, capability, sizeof capability, security, sizeof security) == TJERNFAUG_ANSWER_TAKEN;
    right &= hand(TJERNFAUG_KIND_CARD, body, tjernfaug_body_card(tjernfaug_network(1, 1, 2), suci, sizeof suci, body, sizeof body)) == TJERNFAUG_ANSWER_TAKEN && start();
    pass(14);
    right &= logged[TJERNFAUG_T3510_0] == 0;
    pass(10);
    right &= logged[TJERNFAUG_T3510_0] == 1 && released == 1 && tried == 0;
    pass(1);
    right &= logged[TJERNFAUG_T3511_0] == 1 && tried == 1 && start() && heard(0, reject, sizeof reject);
    pass(1800);
    right &= looked == 1 && start() && heard(1, accept, sizeof accept);
    pass(3240);
    right &= called == 1 && record.hot.dev.due == 1 && heard(1, accept, sizeof accept) == 0;
    table.held[TJERNFAUG_T3346_1] = 1;
    pass(1);
    right &= record.hot.a0.state == TJERNFAUG_STATE_NORMAL_SERVICE && table.held[TJERNFAUG_T3346_1] == 0;
    pass(1);
    right &= start() && logged[TJERNFAUG_T3512] == 1 && logged[TJERNFAUG_T3247] == 1;
    printf("page: the timers of docs/FIRMWARE.md run out %s\n", right ? "as it says" : "WRONG");
    return !right;
}
