/*
 * The readings for C firmware, held to document 01 (its marked facts, its sentences on rejects, all 256 timer octets) and to R-1: each message by the reject reader,
 * and as a protected one by the event, with one draw and with both, and with the octet that its notice tells. By R-6, cause 22 with all 256 octets of T3346.
 */
#include <stdio.h>
#include <string.h>
#include "tjernfaug.h"

static int wrong;

/* Access 0 waits for an answer, in state 4. */
static struct tjernfaug_record waiting;

static void expect(const char *what, size_t got, size_t want)
{
    if (got != want) {
        fprintf(stderr, "%s: %zu, not %zu\n", what, got, want);
        wrong++;
    }
}

/* What stands before a message's octets: access 0, protected, the draw of kind 3 or both of kind 8. */
enum { ONE = 4, BOTH = 6 };
static const uint8_t before[] = {0x00, 0x01, 0x08, 0x07, 0x84, 0x03};

static void heard(const char *what, uint32_t kind, size_t draws, uint32_t answer, size_t offset, const uint8_t *msg, size_t len)
{
    struct tjernfaug_record r = waiting;
    struct tjernfaug_notice notice;
    uint8_t body[16] = {0};
    memset(&notice, 0xA5, sizeof notice);
    memcpy(body, before, draws);
    memcpy(body + draws, msg, len);
    expect(what, tjernfaug_event(&r, kind, body, draws + len, &notice), answer);
    expect(what, (size_t)notice.offset, offset);
}

static void message(const char *what, uint32_t cause, uint32_t answer, size_t offset, const uint8_t *msg, size_t len)
{
    expect(what, reject_cause(msg, len), cause);
    heard(what, 3, ONE, answer, offset, msg, len);
    heard(what, 8, BOTH, answer, offset, msg, len);
}

#define MESSAGE(what, cause, answer, offset, ...)              \
    do {                                                       \
        static const uint8_t msg[] = {__VA_ARGS__};            \
        message(what, cause, answer, offset, msg, sizeof msg); \
    } while (0)

/* low five bits times 2 s, 60 s or 360 s for top bits 0, 1, 2; others 60 s; 65535 for 7 */
static uint32_t seconds(unsigned octet)
{
    static const uint32_t unit[] = {2, 60, 360, 60, 60, 60, 60};
    return octet >> 5 == 7 ? 65535 : (octet & 31) * unit[octet >> 5];
}

static void timers(void)
{
    expect("version", tjernfaug_version(), TJERNFAUG_VERSION);
    expect("timer 3F", timer_seconds(0x3F), 1860);
    expect("timer 5F", timer_seconds(0x5F), 11160);
    expect("timer E5", timer_seconds(0xE5), 65535);
    expect("timer 00", timer_seconds(0x00), 0);
    for (unsigned octet = 0; octet < 256; octet++)
        expect("timer", timer_seconds((uint8_t)octet), seconds(octet));
}

static void wait(void)
{
    static const uint8_t one[] = {0x00}, two[] = {0xF0, 0xF0};
    static const uint8_t card[] = {0x00, 0xF1, 0x10, 0x01, 0x00, 0xF1, 0x10, 0xF0, 0xFF, 0x00, 0x00, 0x07};
    static const uint8_t start[] = {0x00, 0x00, 0x00, 0xF2, 0x20, 0x00, 0x00, 0x2A};
    struct tjernfaug_notice notice;
    expect("new", tjernfaug_new(&waiting, 3, 3, 3, one, sizeof one, two, sizeof two), 0);
    expect("card", tjernfaug_event(&waiting, 1, card, sizeof card, &notice), 0);
    expect("start", tjernfaug_event(&waiting, 2, start, sizeof start, &notice), 0);
}

static void wellformed(void)
{
    MESSAGE("reject 11", 11, 0, 0, 0x7E, 0x00, 0x44, 0x0B);
    MESSAGE("reject 22, two timers", 22, 0, 0, 0x7E, 0x00, 0x44, 0x16, 0x5F, 0x01, 0x2F, 0x16, 0x01, 0x3F);
    MESSAGE("an unknown 9F takes one octet", 3, 0, 0, 0x7E, 0x00, 0x44, 0x03, 0x9F, 0x16, 0x01, 0x3F);
    MESSAGE("cause 255", 255, 0, 0, 0x7E, 0x00, 0x44, 0xFF);
    MESSAGE("cause 0", 0, 0, 0, 0x7E, 0x00, 0x44, 0x00);
    MESSAGE("elements of no octets and of one", 7, 0, 0, 0x7E, 0x00, 0x44, 0x07, 0x70, 0x00, 0x00, 0x80);
    MESSAGE("an accept", 272, 0, 0, 0x7E, 0x00, 0x42, 0x01, 0x01);
}

/* Fewer than the fixed octets, and the first three octets. */
static void heads(void)
{
    message("empty", 269, 13, 0, (const uint8_t *)"", 0);
    MESSAGE("first octet, alone", 270, 14, 0, 0x7D);
    MESSAGE("first octet, and the second", 270, 14, 0, 0x7D, 0x01);
    MESSAGE("first octet", 270, 14, 0, 0x7D, 0x00, 0x44, 0x0B);
    MESSAGE("no second octet", 269, 13, 1, 0x7E);
    MESSAGE("second octet, the last", 271, 15, 1, 0x7E, 0x01);
    MESSAGE("second octet", 271, 15, 1, 0x7E, 0x01, 0x44, 0x0B);
    MESSAGE("no type", 269, 13, 2, 0x7E, 0x00);
    MESSAGE("an unknown type", 272, 16, 2, 0x7E, 0x00, 0x99);
    MESSAGE("a request", 272, 16, 2, 0x7E, 0x00, 0x41, 0x71, 0x00);
    MESSAGE("no cause", 269, 13, 3, 0x7E, 0x00, 0x44);
}

/* The reject reader does not look behind their type; the event does. */
static void accepts(void)
{
    MESSAGE("no result", 272, 13, 3, 0x7E, 0x00, 0x42);
    MESSAGE("a result of length 0", 272, 13, 3, 0x7E, 0x00, 0x42, 0x00);
    MESSAGE("a result of length 0, and octets", 272, 13, 3, 0x7E, 0x00, 0x42, 0x00, 0x01, 0x02);
    MESSAGE("a result's length alone", 272, 13, 4, 0x7E, 0x00, 0x42, 0x01);
    MESSAGE("a cut result", 272, 13, 5, 0x7E, 0x00, 0x42, 0x02, 0x01);
    MESSAGE("an unknown 05 in an accept", 272, 18, 5, 0x7E, 0x00, 0x42, 0x01, 0x01, 0x05, 0x00);
}

static void elements(void)
{
    MESSAGE("an element past the end", 273, 17, 4, 0x7E, 0x00, 0x44, 0x0B, 0x5F, 0x05);
    MESSAGE("an unknown 0F", 274, 18, 4, 0x7E, 0x00, 0x44, 0x0B, 0x0F, 0x00);
    MESSAGE("an unknown 05", 274, 18, 4, 0x7E, 0x00, 0x44, 0x0B, 0x05, 0x00);
    MESSAGE("an unknown 05 past the end: at a tie the lower number", 273, 17, 4, 0x7E, 0x00, 0x44, 0x0B, 0x05);
    MESSAGE("an unknown 05 behind 9F", 274, 18, 5, 0x7E, 0x00, 0x44, 0x0B, 0x9F, 0x05, 0x00);
    MESSAGE("a length past the end, behind 9F", 273, 17, 5, 0x7E, 0x00, 0x44, 0x0B, 0x9F, 0x77, 0x00);
}

/* Some seconds start T3346, for them in a protected message and else for the second draw, 900 s; zero and deactivated are as T3510 out. */
static void congested(unsigned octet, uint8_t protected)
{
    const uint8_t body[] = {0x00, protected, 0x10, 0x0E, 0x84, 0x03, 0x7E, 0x00, 0x44, 0x16, 0x5F, 0x01, (uint8_t)octet};
    const uint32_t given = seconds(octet), runs = given != 0 && given != 65535;
    struct tjernfaug_record r = waiting;
    struct tjernfaug_notice notice;
    expect("cause 22", tjernfaug_event(&r, 8, body, sizeof body, &notice), 0);
    expect("whether T3346 runs", r.hot.a0.t3346, runs);
    expect("T3346", notice.c0.t3346.told, runs ? 2 : 0);
    expect("its seconds", notice.c0.t3346.seconds, !runs ? 0 : protected ? given : 900);
    expect("T3511", notice.c0.t3511.told, runs ? 0 : 2);
    expect("attempts", r.hot.a0.attempts, !runs);
}

static void draws(void)
{
    heard("the draw cut", 3, ONE - 1, 1, 0, before, 0);
    heard("the second draw cut", 8, BOTH - 1, 1, 0, before, 0);
    for (unsigned octet = 0; octet < 256; octet++) {
        congested(octet, 0);
        congested(octet, 1);
    }
}

int main(void)
{
    timers();
    wait();
    wellformed();
    heads();
    accepts();
    elements();
    draws();
    printf("reader: %d wrong\n", wrong);
    return wrong != 0;
}
