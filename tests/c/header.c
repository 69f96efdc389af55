/*
 * What include/tjernfaug.h has beside the library's calls, as C and as C++: the names of numbers, the timers in a row, how a table of deadlines lies, which of two serials is the later
 * one, networks by their digits, and the bodies of events, each octet for octet by the event log's form, in every buffer from none to one that is too long.
 */
#include "tjernfaug.h"
#include <stddef.h>
#include <stdio.h>
#include <string.h>

static int wrong;

static void expect(const char *what, uint64_t got, uint64_t want)
{
    if (got != want) {
        fprintf(stderr, "%s: %llu, not %llu\n", what, (unsigned long long)got, (unsigned long long)want);
        wrong++;
    }
}

static void spelled(const char *got, const char *want)
{
    if (strcmp(got, want) != 0) {
        fprintf(stderr, "%s, not %s\n", got, want);
        wrong++;
    }
}

/* A number above all that have a name. */
static const uint32_t beyond = UINT32_MAX;

static void kinds(void)
{
    static const char *const names[] = {"unknown", "card", "start", "message", "timer", "power", "key", "update", "message with both draws", "unknown", "import",
                                        "card with an edition", "unknown"};
    static const uint32_t numbers[] = {TJERNFAUG_KIND_CARD, TJERNFAUG_KIND_START, TJERNFAUG_KIND_MESSAGE, TJERNFAUG_KIND_TIMER, TJERNFAUG_KIND_POWER, TJERNFAUG_KIND_KEY,
                                       TJERNFAUG_KIND_UPDATE, TJERNFAUG_KIND_MESSAGE_DRAWS};
    for (uint32_t i = 0; i < 13; i++)
        spelled(tjernfaug_kind_name(i), names[i]);
    for (uint32_t i = 0; i < 8; i++)
        expect("kind", numbers[i], i + 1);
    expect("import", TJERNFAUG_KIND_IMPORT, 10);
    expect("card with an edition", TJERNFAUG_KIND_CARD_EDITION, 11);
    spelled(tjernfaug_kind_name(beyond), "unknown");
}

/* By document 01, R-1, R-3 and R-6: each number from 0 to 20 has a name of its own, and so have those of an image. 21 and 22 are no call's. */
static void answers(void)
{
    static const uint32_t numbers[] = {
        TJERNFAUG_ANSWER_TAKEN, TJERNFAUG_ANSWER_RANGE, TJERNFAUG_ANSWER_IGNORED, TJERNFAUG_ANSWER_LAYOUT, TJERNFAUG_ANSWER_FULL, TJERNFAUG_ANSWER_NO_CARD, TJERNFAUG_ANSWER_STATE,
        TJERNFAUG_ANSWER_SAME_NETWORK, TJERNFAUG_ANSWER_NETWORK_LISTED, TJERNFAUG_ANSWER_AREA_LISTED, TJERNFAUG_ANSWER_UNPROTECTED, TJERNFAUG_ANSWER_NOT_RUNNING, TJERNFAUG_ANSWER_SHORT,
        TJERNFAUG_ANSWER_CUT, TJERNFAUG_ANSWER_FIRST_OCTET, TJERNFAUG_ANSWER_SECOND_OCTET, TJERNFAUG_ANSWER_MESSAGE_TYPE, TJERNFAUG_ANSWER_PAST_END, TJERNFAUG_ANSWER_UNKNOWN_ELEMENT,
        TJERNFAUG_ANSWER_THIRD_LEVEL, TJERNFAUG_ANSWER_WAITING, TJERNFAUG_ANSWER_VERSION, TJERNFAUG_ANSWER_DAMAGED,
    };
    for (uint32_t i = 0; i < 23; i++) {
        expect("answer", numbers[i], i <= 20 ? i : i + 2);
        expect("an answer without a name", strcmp(tjernfaug_answer_name(numbers[i]), "unknown") == 0, 0);
        for (uint32_t j = 0; j < i; j++)
            expect("two answers of one name", strcmp(tjernfaug_answer_name(numbers[i]), tjernfaug_answer_name(numbers[j])) == 0, 0);
    }
    spelled(tjernfaug_answer_name(TJERNFAUG_ANSWER_TAKEN), "taken");
    spelled(tjernfaug_answer_name(TJERNFAUG_REFUSED + TJERNFAUG_ANSWER_SHORT - TJERNFAUG_REFUSED), "buffer too short");
    spelled(tjernfaug_answer_name(TJERNFAUG_ANSWER_UNKNOWN_ELEMENT), "an unknown element that must be understood");
    spelled(tjernfaug_answer_name(TJERNFAUG_ANSWER_WAITING), "the network has asked for time");
    spelled(tjernfaug_answer_name(TJERNFAUG_ANSWER_VERSION), "an image of another version");
    spelled(tjernfaug_answer_name(TJERNFAUG_ANSWER_DAMAGED), "a damaged image");
    spelled(tjernfaug_answer_name(21), "unknown");
    spelled(tjernfaug_answer_name(22), "unknown");
    spelled(tjernfaug_answer_name(25), "unknown");
    spelled(tjernfaug_answer_name(beyond), "unknown");
    expect("refused", TJERNFAUG_REFUSED, 256);
}

static void states(void)
{
    static const char *const names[] = {"no card or card refused", "normal service", "limited service", "attempting registration", "registration initiated", "registered",
                                        "network search", "unknown"};
    static const uint32_t numbers[] = {TJERNFAUG_STATE_NO_SUPI, TJERNFAUG_STATE_NORMAL_SERVICE, TJERNFAUG_STATE_LIMITED_SERVICE, TJERNFAUG_STATE_ATTEMPTING_REGISTRATION,
                                       TJERNFAUG_STATE_REGISTERED_INITIATED, TJERNFAUG_STATE_REGISTERED, TJERNFAUG_STATE_PLMN_SEARCH};
    static const uint32_t small[] = {TJERNFAUG_STATUS_5U1, TJERNFAUG_STATUS_5U2, TJERNFAUG_STATUS_5U3, TJERNFAUG_TYPE_INITIAL, TJERNFAUG_TYPE_MOBILITY, TJERNFAUG_TYPE_PERIODIC,
                                     TJERNFAUG_EDITION_SOURCE_001, TJERNFAUG_EDITION_SOURCE_002, TJERNFAUG_EDITION_SOURCE_003};
    for (uint32_t i = 0; i < 8; i++)
        spelled(tjernfaug_state_name(i), names[i]);
    for (uint32_t i = 0; i < 7; i++)
        expect("state", numbers[i], i);
    for (uint32_t i = 0; i < 9; i++)
        expect("status, type or edition", small[i], i % 3 + 1);
    spelled(tjernfaug_state_name(beyond), "unknown");
}

static void timers(void)
{
    static const char *const names[] = {"unknown", "T3510", "T3511", "T3502", "T3247", "T3512", "T3346", "unknown"};
    static const uint32_t numbers[] = {TJERNFAUG_TIMER_T3510, TJERNFAUG_TIMER_T3511, TJERNFAUG_TIMER_T3502, TJERNFAUG_TIMER_T3247, TJERNFAUG_TIMER_T3512, TJERNFAUG_TIMER_T3346};
    for (uint32_t i = 0; i < 8; i++)
        spelled(tjernfaug_timer_name(i), names[i]);
    for (uint32_t i = 0; i < 6; i++)
        expect("timer", numbers[i], i + 1);
    spelled(tjernfaug_timer_name(beyond), "unknown");
    expect("left", TJERNFAUG_TOLD_LEFT, 0);
    expect("stopped", TJERNFAUG_TOLD_STOPPED, 1);
    expect("started", TJERNFAUG_TOLD_STARTED, 2);
}

/* Each field of the notice by its slot, with another number in each. The order is that of R-13's ties. */
static void slots(void)
{
    static const uint32_t numbers[] = {1, 1, 2, 2, 3, 3, 6, 6, 5, 4}, accesses[] = {0, 1, 0, 1, 0, 1, 0, 1, 0, 0};
    const uint32_t none[] = {TJERNFAUG_NONE_DUE, 11, beyond};
    struct tjernfaug_notice notice;
    struct tjernfaug_timer *const fields[] = {
        &notice.c0.t3510, &notice.c1.t3510, &notice.c0.t3511, &notice.c1.t3511, &notice.c0.t3502, &notice.c1.t3502, &notice.c0.t3346, &notice.c1.t3346, &notice.t3512, &notice.t3247,
    };
    memset(&notice, 0xA5, sizeof notice);
    for (uint32_t slot = 0; slot < TJERNFAUG_SLOTS; slot++) {
        fields[slot]->told = slot + 1;
        fields[slot]->seconds = 1000 + slot;
    }
    for (uint32_t slot = 0; slot < TJERNFAUG_SLOTS; slot++) {
        const struct tjernfaug_timer timer = tjernfaug_timer_of(&notice, slot);
        char name[32];
        expect("told", timer.told, slot + 1);
        expect("seconds", timer.seconds, 1000 + slot);
        expect("number", tjernfaug_slot_number(slot), numbers[slot]);
        expect("access", tjernfaug_slot_access(slot), accesses[slot]);
        snprintf(name, sizeof name, slot < 8 ? "%s of access %u" : "%s", tjernfaug_timer_name(numbers[slot]), (unsigned)accesses[slot]);
        spelled(tjernfaug_slot_name(slot), name);
    }
    for (size_t i = 0; i < sizeof none / sizeof *none; i++) {
        expect("no slot, told", tjernfaug_timer_of(&notice, none[i]).told, TJERNFAUG_TOLD_LEFT);
        expect("no slot, seconds", tjernfaug_timer_of(&notice, none[i]).seconds, 0);
        expect("no slot, number", tjernfaug_slot_number(none[i]), 0);
        expect("no slot, access", tjernfaug_slot_access(none[i]), 0);
        spelled(tjernfaug_slot_name(none[i]), "unknown");
    }
}

/* The slots by name, and how a table of deadlines and a round's list lie: 28 numbers of 32 bits for each timer that ran out. */
static void deadlines(void)
{
    static const uint32_t named[] = {TJERNFAUG_T3510_0, TJERNFAUG_T3510_1, TJERNFAUG_T3511_0, TJERNFAUG_T3511_1, TJERNFAUG_T3502_0, TJERNFAUG_T3502_1,
                                     TJERNFAUG_T3346_0, TJERNFAUG_T3346_1, TJERNFAUG_T3512, TJERNFAUG_T3247, TJERNFAUG_SLOTS};
    for (uint32_t slot = 0; slot <= 10; slot++)
        expect("slot", named[slot], slot);
    expect("none due", TJERNFAUG_NONE_DUE, 10);
    expect("a table's octets", sizeof(struct tjernfaug_deadlines), 136);
    expect("rests", offsetof(struct tjernfaug_deadlines, rests), 0);
    expect("ends", offsetof(struct tjernfaug_deadlines, ends), 80);
    expect("held", offsetof(struct tjernfaug_deadlines, held), 120);
    expect("numbers of a timer that ran out", TJERNFAUG_RAN_WORDS, 28);
    expect("most that run out", TJERNFAUG_MOST_RAN, 10);
    expect("longest wait", TJERNFAUG_LONGEST_WAIT, 600000);
    expect("octets of a timer that ran out", sizeof(struct tjernfaug_ran), 4 * 28);
    expect("its slot", offsetof(struct tjernfaug_ran, slot), 0);
    expect("its notice's offset", offsetof(struct tjernfaug_ran, notice.offset), 4 * 2);
    expect("its timers of access 0", offsetof(struct tjernfaug_ran, notice.c0), 4 * 4);
    expect("its timers of access 1", offsetof(struct tjernfaug_ran, notice.c1), 4 * 12);
    expect("its T3247", offsetof(struct tjernfaug_ran, notice.t3247), 4 * 20);
    expect("its T3512", offsetof(struct tjernfaug_ran, notice.t3512), 4 * 22);
    expect("its restart", offsetof(struct tjernfaug_ran, notice.restart), 4 * 24);
    expect("its leave", offsetof(struct tjernfaug_ran, notice.leave), 4 * 25);
    expect("its update", offsetof(struct tjernfaug_ran, notice.update), 4 * 26);
    expect("whether it changed the record", offsetof(struct tjernfaug_ran, notice.changed), 4 * 27);
    expect("a notice's octets", sizeof(struct tjernfaug_notice), offsetof(struct tjernfaug_notice, changed) + 4);
}

/* A serial is behind those of the half of all numbers that comes before it. The one that is just half of them away is on neither side. */
static void serials(void)
{
    static const uint32_t from[] = {0, 1, 5, 0x7FFFFFFF, 0x80000000, 0xDEADBEEF, UINT32_MAX - 1, UINT32_MAX};
    static const uint32_t ahead[] = {1, 2, 1000, 0x7FFFFFFE, 0x7FFFFFFF};
    for (size_t i = 0; i < sizeof from / sizeof *from; i++) {
        expect("a serial and itself", (uint64_t)tjernfaug_later(from[i], from[i]), 0);
        expect("half of all ahead", (uint64_t)tjernfaug_later(from[i] + 0x80000000, from[i]), 0);
        expect("half of all back", (uint64_t)tjernfaug_later(from[i], from[i] + 0x80000000), 0);
        for (size_t j = 0; j < sizeof ahead / sizeof *ahead; j++) {
            expect("a later serial", (uint64_t)tjernfaug_later(from[i] + ahead[j], from[i]), 1);
            expect("an earlier serial", (uint64_t)tjernfaug_later(from[i], from[i] + ahead[j]), 0);
        }
    }
    expect("across the wrap", (uint64_t)tjernfaug_later(0, UINT32_MAX), 1);
    expect("an image's octets", TJERNFAUG_IMAGE, 1392);
}

/* The text that a number has, and that nothing is written behind it. */
static void written(uint32_t network, const char *want)
{
    char out[TJERNFAUG_NETWORK_TEXT + 1];
    memset(out, '!', sizeof out);
    const char *got = tjernfaug_network_text(network, out);
    expect("the text is what was lent", got == out, 1);
    spelled(got, want);
    for (size_t i = strlen(want) + 1; i < sizeof out; i++)
        expect("behind the text", (uint64_t)out[i], '!');
}

/* The number of a text of digits, by the order in which TS 24.008 sends them: MCC2 MCC1, MNC3 MCC3, MNC2 MNC1, the third MNC digit F where there is none. */
static uint32_t sent(const char *text)
{
    static const int order[] = {1, 0, 6, 2, 5, 4};
    uint32_t number = 0;
    for (int i = 0; i < 6; i++)
        number = number * 16 + (text[order[i]] ? (uint32_t)(text[order[i]] - '0') : 0xF);
    return number;
}

static void network(uint32_t mcc, uint32_t mnc, uint32_t digits)
{
    char text[] = {(char)('0' + mcc / 100), (char)('0' + mcc / 10 % 10), (char)('0' + mcc % 10), '-', '0', '0', 0, 0};
    for (uint32_t i = digits, rest = mnc; i > 0; i--, rest /= 10)
        text[3 + i] = (char)('0' + rest % 10);
    expect("network", tjernfaug_network(mcc, mnc, digits), sent(text));
    written(sent(text), text);
}

/* A digit that is none, in each of the six places of a network of two and of three MNC digits; F is one in the third of the MNC, and stands for no digit. */
static void digits(uint32_t number)
{
    for (int place = 0; place < 24; place += 4)
        for (uint32_t digit = 0xA; digit <= 0xF; digit++) {
            const uint32_t bad = (number & ~(UINT32_C(0xF) << place)) | digit << place;
            char text[TJERNFAUG_NETWORK_TEXT];
            snprintf(text, sizeof text, "%06X", (unsigned)(bad & 0xFFFFFF));
            if (place != 12 || digit != 0xF)
                written(bad, text);
        }
}

static void networks(void)
{
    const uint32_t bad[][3] = {{1000, 0, 2}, {1000, 0, 3}, {0, 100, 2}, {0, 1000, 3}, {1, 1, 0}, {1, 1, 1}, {1, 1, 4}, {beyond, 1, 2}, {1, beyond, 2}, {1, beyond, 3}, {1, 1, beyond}};
    for (uint32_t mcc = 0; mcc < 1000; mcc++) {
        for (uint32_t mnc = 0; mnc < 100; mnc++)
            network(mcc, mnc, 2);
        for (uint32_t mnc = 0; mnc < 1000; mnc++)
            network(mcc, mnc, 3);
    }
    for (size_t i = 0; i < sizeof bad / sizeof *bad; i++)
        expect("no network", tjernfaug_network(bad[i][0], bad[i][1], bad[i][2]), 0xFFFFFFFF);
    expect("002-02", tjernfaug_network(2, 2, 2), 0x00F220);
    expect("310-260", tjernfaug_network(310, 260, 3), 0x130062);
    expect("310-26 and 310-026", tjernfaug_network(310, 26, 2) == tjernfaug_network(310, 26, 3), 0);
    expect("a text's octets", TJERNFAUG_NETWORK_TEXT, sizeof "310-260");
    digits(0x00F220);
    digits(0x130062);
    written(0xFFFFFF, "FFFFFF");
    written(0x1000000, "none");
    written(TJERNFAUG_NO_NETWORK, "none");
}

/* A body in a buffer of len octets, which lies in a longer one: it is there if it fits, and all else stays. */
enum { ROOM = 72 };
static const uint8_t stays = 0xA5;
static void body_is(const char *what, uint64_t got, const uint8_t *body, uint64_t len, const uint8_t *want, uint64_t want_len)
{
    const uint64_t fits = want_len <= len ? want_len : 0;
    expect(what, got, fits);
    for (uint64_t i = 0; i < ROOM; i++)
        expect(what, body[i], i < fits ? want[i] : stays);
}

/* build is a builder's call with body and len; what follows it are the octets that it has to write. */
#define BODY(what, build, ...)                                   \
    do {                                                         \
        static const uint8_t want[] = {__VA_ARGS__};             \
        for (uint64_t len = 0; len < ROOM; len++) {              \
            uint8_t body[ROOM];                                  \
            memset(body, stays, sizeof body);                    \
            const uint64_t got = build;                          \
            body_is(what, got, body, len, want, sizeof want);    \
        }                                                        \
    } while (0)

static void bodies(void)
{
    static const uint8_t suci[] = {0x01, 0x00, 0xF1, 0x10, 0xF0, 0xFF, 0x00, 0x00, 0x07}, msg[] = {0x7E, 0x00, 0x44, 0x0B};
    BODY("card", tjernfaug_body_card(0x00F110, suci, sizeof suci, body, len), 0x00, 0xF1, 0x10, 0x01, 0x00, 0xF1, 0x10, 0xF0, 0xFF, 0x00, 0x00, 0x07);
    BODY("card without SUCI", tjernfaug_body_card(0x130062, suci, 0, body, len), 0x13, 0x00, 0x62);
    BODY("card of no network", tjernfaug_body_card(TJERNFAUG_NO_NETWORK, suci, 1, body, len), 0xFF, 0xFF, 0xFF, 0x01);
    BODY("card with an edition", tjernfaug_body_card_edition(TJERNFAUG_EDITION_SOURCE_002, 0x00F110, suci, sizeof suci, body, len),
         0x02, 0x00, 0xF1, 0x10, 0x01, 0x00, 0xF1, 0x10, 0xF0, 0xFF, 0x00, 0x00, 0x07);
    BODY("edition without SUCI", tjernfaug_body_card_edition(0xFF, 0x130062, suci, 0, body, len), 0xFF, 0x13, 0x00, 0x62);
    BODY("start", tjernfaug_body_start(0, 1, 0x00F220, 0x00002A, body, len), 0x00, 0x01, 0x00, 0xF2, 0x20, 0x00, 0x00, 0x2A);
    BODY("start, other numbers", tjernfaug_body_start(1, 0, 0x130062, 0x123456, body, len), 0x01, 0x00, 0x13, 0x00, 0x62, 0x12, 0x34, 0x56);
    BODY("start, wide numbers", tjernfaug_body_start(0xFF, 0xFE, 0xAB130062, 0xCD123456, body, len), 0xFF, 0xFE, 0x13, 0x00, 0x62, 0x12, 0x34, 0x56);
    BODY("message", tjernfaug_body_message(0, 1, 1800, msg, sizeof msg, body, len), 0x00, 0x01, 0x08, 0x07, 0x7E, 0x00, 0x44, 0x0B);
    BODY("empty message", tjernfaug_body_message(1, 0, 3600, msg, 0, body, len), 0x01, 0x00, 0x10, 0x0E);
    BODY("both draws", tjernfaug_body_message_draws(1, 0, 3600, 1234, msg, sizeof msg, body, len), 0x01, 0x00, 0x10, 0x0E, 0xD2, 0x04, 0x7E, 0x00, 0x44, 0x0B);
    BODY("empty, both draws", tjernfaug_body_message_draws(0, 1, 1800, 900, msg, 0, body, len), 0x00, 0x01, 0x08, 0x07, 0x84, 0x03);
    BODY("timer", tjernfaug_body_timer(TJERNFAUG_TIMER_T3346, 1, body, len), 0x06, 0x01);
    BODY("T3247 by its slot", tjernfaug_body_timer(tjernfaug_slot_number(TJERNFAUG_T3247), tjernfaug_slot_access(TJERNFAUG_T3247), body, len), 0x04, 0x00);
    BODY("key", tjernfaug_body_key(1, 6, body, len), 0x01, 0x06);
    BODY("update", tjernfaug_body_update(0, TJERNFAUG_TYPE_MOBILITY, 0x00F220, 0x00002B, 1 << 5, 1 << 1 | 1 << 8, body, len),
         0x00, 0x02, 0x00, 0xF2, 0x20, 0x00, 0x00, 0x2B, 0x20, 0x00, 0x02, 0x01);
    BODY("update, other numbers", tjernfaug_body_update(1, TJERNFAUG_TYPE_PERIODIC, 0x130062, 0x123456, 0xBEEF, 0xCAFE, body, len),
         0x01, 0x03, 0x13, 0x00, 0x62, 0x12, 0x34, 0x56, 0xEF, 0xBE, 0xFE, 0xCA);
}

/* A message that stands in its place already. */
static void in_place(void)
{
    static const uint8_t want[] = {0x01, 0x00, 0x10, 0x0E, 0xD2, 0x04, 0x7E, 0x00, 0x44, 0x0B};
    uint8_t body[] = {0, 0, 0, 0, 0, 0, 0x7E, 0x00, 0x44, 0x0B};
    expect("a message in its place", tjernfaug_body_message_draws(1, 0, 3600, 1234, body + TJERNFAUG_BODY_MESSAGE_DRAWS, 4, body, sizeof body), sizeof want);
    expect("its octets", memcmp(body, want, sizeof want) != 0, 0);
}

/* Arguments longer than any buffer, and the longest card. */
static void lengths(void)
{
    static const uint8_t octets[64] = {0x01};
    uint8_t body[ROOM], kept[ROOM];
    memset(body, stays, sizeof body);
    memset(kept, stays, sizeof kept);
    for (uint64_t less = 0; less < 8; less++) {
        expect("no end of a SUCI", tjernfaug_body_card(0, octets, UINT64_MAX - less, body, sizeof body), 0);
        expect("no end of a SUCI behind an edition", tjernfaug_body_card_edition(1, 0, octets, UINT64_MAX - less, body, sizeof body), 0);
        expect("no end of a message", tjernfaug_body_message(0, 0, 0, octets, UINT64_MAX - less, body, sizeof body), 0);
        expect("no end of a message with both draws", tjernfaug_body_message_draws(0, 0, 0, 0, octets, UINT64_MAX - less, body, sizeof body), 0);
    }
    expect("all stays", memcmp(body, kept, sizeof body) != 0, 0);
    expect("the longest card", tjernfaug_body_card(0, octets, sizeof octets, body, TJERNFAUG_LONGEST_CARD), TJERNFAUG_LONGEST_CARD);
    expect("behind it", body[TJERNFAUG_LONGEST_CARD], stays);
    expect("the longest with an edition", tjernfaug_body_card_edition(1, 0, octets, sizeof octets, body, TJERNFAUG_LONGEST_CARD_EDITION), TJERNFAUG_LONGEST_CARD_EDITION);
    expect("behind that", body[TJERNFAUG_LONGEST_CARD_EDITION], stays);
    expect("power", TJERNFAUG_BODY_POWER, 0);
}

static void version(void)
{
    char text[16];
    snprintf(text, sizeof text, "%d.%d.%d", TJERNFAUG_VERSION / 10000, TJERNFAUG_VERSION / 100 % 100, TJERNFAUG_VERSION % 100);
    spelled(TJERNFAUG_VERSION_TEXT, text);
}

int main(void)
{
    kinds();
    answers();
    states();
    timers();
    slots();
    deadlines();
    serials();
    networks();
    bodies();
    in_place();
    lengths();
    version();
    printf("header: %d wrong\n", wrong);
    return wrong != 0;
}
