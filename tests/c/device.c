/*
 * A device and a false cell. At power-up the device reads its card's file of forbidden networks. The cell rejects three registrations with cause 11 and no protection; the
 * device waits for T3247 each time and tries again, until the ban counter is at its limit and it stays quiet. Of the cells that it hears it then tries the first that it may:
 * home. In a busy hour the network asks for ten minutes there, and the device waits. Then the network takes it, after an accept that lost its last octet, and it moves: a
 * mobility update in the next area, and a periodic one once T3512 has run out. It writes the card's file, which forbids the same networks for a record just given that card.
 * Then it has a new card and goes a long way: sixteen networks turn it away, and the seventeenth finds a place once T3247 has lifted their marks.
 * Then it has a card of edition 2 and comes from 4G, behind a power cut: it opens with the GUTI mapped from its 4G-GUTI, and adds its own, its UE status and the attach message.
 * Last it is told to call in after 413 days, and does.
 * Its ten timers have their deadlines on a clock of 32 bits that soon wraps, and again every fifty days; they run out in asking rounds alone, up to 600 s apart. For every other one it
 * sleeps no longer than the library says, and that one is not late at all. It writes what it was told, and what ran out, to a log, from which the lab's program replays the same states.
 * When an event or a round has changed the record, it saves an image. Behind the power cut, and now and then between two rounds, as if its software had been restarted, it has nothing
 * else, and goes on with what it loads.
 * Usage: device LOG; the states go to standard output as the lab's program prints them.
 */
#include <inttypes.h>
#include <stdio.h>
#include <string.h>
#include "tjernfaug.h"

/* Networks and area codes. */
#define HOME tjernfaug_network(1, 1, 2)
#define AWAY tjernfaug_network(2, 2, 2)
#define OTHER tjernfaug_network(3, 3, 2)
#define BANNED tjernfaug_network(4, 4, 2)
enum { HERE = 0x2A, NEXT };

/* The card's SUCI. Its file of forbidden networks has four places, of which the second is in use; in the end the first two are. */
static const uint8_t suci[] = {0x01, 0x00, 0xF1, 0x10, 0xF0, 0xFF, 0x00, 0x00, 0x07};
static const uint8_t listed[] = {0xFF, 0xFF, 0xFF, 0x00, 0xF4, 0x40, 0xFF, 0xFF, 0xFF, 0xFF, 0xFF, 0xFF};
static const uint8_t stored[] = {0x00, 0xF4, 0x40, 0x00, 0xF2, 0x20, 0xFF, 0xFF, 0xFF, 0xFF, 0xFF, 0xFF};

/* The false cell's reject, cause 11; that of a busy network, cause 22 with T3346 (5F 01 2A, ten minutes); an accept with T3512 (5E 01 21, an hour), which may be left out;
 * one with the longest T3512, 31 times 320 hours. */
static const uint8_t reject[] = {0x7E, 0x00, 0x44, 0x0B};
static const uint8_t congestion[] = {0x7E, 0x00, 0x44, 0x16, 0x5F, 0x01, 0x2A};
static const uint8_t accept[] = {0x7E, 0x00, 0x42, 0x01, 0x01, 0x5E, 0x01, 0x21};
static const uint8_t longest[] = {0x7E, 0x00, 0x42, 0x01, 0x01, 0x5E, 0x01, 0xDF};
enum { ELEMENT = 3, LONGEST = 35712000 };

/* A request with ngKSI 7: the clear part alone, the card's SUCI and 2E. */
static const uint8_t clear[] = {0x7E, 0x00, 0x41, 0x71, 0x00, 0x09, 0x01, 0x00, 0xF1, 0x10, 0xF0, 0xFF, 0x00, 0x00, 0x07, 0x2E, 0x02, 0xF0, 0xF0};

/* The clock is the board's, in milliseconds; passed counts them too, since the device was switched on. */
struct device {
    struct tjernfaug_record record;
    struct tjernfaug_deadlines table;
    struct tjernfaug_notice notice;
    struct tjernfaug_ran ran[TJERNFAUG_MOST_RAN];
    uint32_t clock, rounds, waits, serial;
    uint64_t passed;
    uint8_t image[TJERNFAUG_IMAGE];
    uint8_t body[TJERNFAUG_LONGEST_CARD_EDITION];
    FILE *log;
    unsigned events;
};

/* A thousand seconds before the clock wraps; the numbers that a round's list has; the longest lap; and how long the device waits for its next round, 600 s at most. Behind so many
 * rounds the software is restarted, and behind so many the table is saved, which is every week at the latest. */
enum { WORDS = TJERNFAUG_MOST_RAN * TJERNFAUG_RAN_WORDS, RESTART = 97, WEEK = 1000 };
static const uint32_t begin = UINT32_MAX - 999999, lap = 2147483647, gaps[] = {600000, 1, 599999, 600000, 234567};

/* Those timers have a deadline which the record holds as running. */
static int fits(const struct device *d)
{
    const struct tjernfaug_access *a = &d->record.hot.a0, *b = &d->record.hot.a1;
    const uint8_t runs[TJERNFAUG_SLOTS] = {a->t3510, b->t3510, a->t3511, b->t3511, a->t3502, b->t3502, a->t3346, b->t3346, d->record.hot.dev.t3512, d->record.hot.dev.t3247};
    return memcmp(d->table.held, runs, sizeof runs) == 0;
}

/* The record's octets in an image. */
enum { RECORD = 12, TABLE = 1258 };

static int saves(struct device *d)
{
    return tjernfaug_save(&d->record, &d->table, ++d->serial, d->image, sizeof d->image) == TJERNFAUG_ANSWER_TAKEN;
}

/* Saves the record if it was changed. Then it is another than in the last image, and else the same. */
static int keeps(struct device *d, uint32_t changed)
{
    uint8_t next[TJERNFAUG_IMAGE];
    const int right = tjernfaug_save(&d->record, &d->table, d->serial, next, sizeof next) == TJERNFAUG_ANSWER_TAKEN;
    const uint32_t other = memcmp(next + RECORD, d->image + RECORD, TABLE - RECORD) != 0;
    return right && other == changed && (!changed || saves(d));
}

/* Begins with what was saved, and nothing else. */
static int boots(struct device *d)
{
    uint32_t serial = 0;
    memset(&d->record, 0xA5, sizeof d->record);
    memset(&d->table, 0xA5, sizeof d->table);
    return tjernfaug_load(&d->record, &d->table, &serial, d->image, sizeof d->image) == TJERNFAUG_ANSWER_TAKEN && serial == d->serial && fits(d);
}

/* Logs an event. */
static void note(struct device *d, uint32_t kind, const uint8_t *body, uint64_t len)
{
    const uint8_t head[] = {(uint8_t)(len + 2), (uint8_t)((len + 2) >> 8), (uint8_t)kind, (uint8_t)(kind >> 8)};
    fwrite(head, 1, sizeof head, d->log);
    fwrite(body, 1, (size_t)len, d->log);
}

/* An event's number, its answer, both states and T3247. */
static void show(struct device *d, uint32_t answer, const struct tjernfaug_hot *hot)
{
    printf("%u %u %u %u %u\n", ++d->events, answer, hot->a0.state, hot->a1.state, hot->dev.t3247);
}

/* Logs the event, hands it over, shows it, gives the timers their deadlines, and saves; of a message at fault it says which octet was bad. */
static uint32_t hand(struct device *d, uint32_t kind, const uint8_t *body, uint64_t len)
{
    note(d, kind, body, len);
    uint32_t answer = tjernfaug_event(&d->record, kind, body, len, &d->notice);
    show(d, answer, &d->record.hot);
    if (answer >= TJERNFAUG_ANSWER_CUT && answer <= TJERNFAUG_ANSWER_UNKNOWN_ELEMENT)
        fprintf(stderr, "device: octet %" PRIu64 ": %s\n", d->notice.offset, tjernfaug_answer_name(answer));
    return tjernfaug_arm(&d->table, d->clock, &d->notice) == TJERNFAUG_ANSWER_TAKEN && fits(d) && keeps(d, d->notice.changed) ? answer : TJERNFAUG_REFUSED;
}

static int taken(uint32_t answer)
{
    return answer == TJERNFAUG_ANSWER_TAKEN;
}

/* The slot's timer was started now for so many seconds: its first lap, and what rests behind it. */
static int runs(const struct device *d, uint32_t slot, uint64_t seconds)
{
    const uint64_t length = 1000 * seconds, first = length < lap ? length : lap;
    return d->table.held[slot] == 1 && d->table.ends[slot] == (uint32_t)(d->clock + first) && d->table.rests[slot] == length - first;
}

static uint32_t opened(struct tjernfaug_record *r)
{
    static const uint8_t capability[] = {0x00}, security[] = {0xF0, 0xF0};
    return tjernfaug_new(r, 3, 3, 3, capability, sizeof capability, security, sizeof security);
}

static uint32_t card(struct device *d)
{
    return hand(d, TJERNFAUG_KIND_CARD, d->body, tjernfaug_body_card(HOME, suci, sizeof suci, d->body, sizeof d->body));
}

static uint32_t start(struct device *d, uint32_t network)
{
    return hand(d, TJERNFAUG_KIND_START, d->body, tjernfaug_body_start(0, 0, network, HERE, d->body, sizeof d->body));
}

/* Session 5 stands, and has data to send. */
static uint32_t update(struct device *d, uint8_t type, uint32_t code)
{
    return hand(d, TJERNFAUG_KIND_UPDATE, d->body, tjernfaug_body_update(0, type, HOME, code, 1 << 5, 1 << 5, d->body, sizeof d->body));
}

static uint32_t key(struct device *d)
{
    return hand(d, TJERNFAUG_KIND_KEY, d->body, tjernfaug_body_key(0, 0, d->body, sizeof d->body));
}

/* A timer that ran out is logged, and shown on the record as it was before the round: its event there is taken and tells the same. */
static int replays(struct device *d, struct tjernfaug_record *before, const struct tjernfaug_ran *ran)
{
    const uint64_t len = tjernfaug_body_timer(tjernfaug_slot_number(ran->slot), tjernfaug_slot_access(ran->slot), d->body, sizeof d->body);
    note(d, TJERNFAUG_KIND_TIMER, d->body, len);
    const uint32_t answer = tjernfaug_event(before, TJERNFAUG_KIND_TIMER, d->body, len, &d->notice);
    show(d, answer, &before->hot);
    return taken(answer) && ran->notice.changed == 1 && memcmp(&ran->notice, &d->notice, sizeof d->notice) == 0;
}

/* An asking round: how many timers ran out, the first of them in d->ran[0]. */
static uint32_t asks(struct device *d)
{
    struct tjernfaug_record before = d->record;
    const uint32_t count = tjernfaug_round(&d->record, &d->table, d->clock, d->ran, WORDS);
    int right = count <= TJERNFAUG_MOST_RAN && fits(d);
    for (uint32_t i = 0; right && i < count; i++)
        right = replays(d, &before, &d->ran[i]);
    return right && (count == 0 || keeps(d, 1)) ? count : TJERNFAUG_REFUSED;
}

/*
 * The time goes on, round by round, until a slot's timer is out. Right is the first round that is so many seconds from now or later; just then, if the device sleeps no longer than the
 * library says. The notice is then that timer's.
 */
static int wait(struct device *d, uint32_t slot, uint64_t seconds)
{
    const uint64_t deadline = d->passed + 1000 * seconds;
    const int punctual = d->waits++ % 2 == 0;
    while (d->passed < deadline) {
        const uint32_t drawn = gaps[d->rounds++ % (sizeof gaps / sizeof *gaps)], most = tjernfaug_wait(&d->table, d->clock);
        const uint32_t gap = punctual && most < drawn ? most : drawn;
        if (most == 0 || most > TJERNFAUG_LONGEST_WAIT)
            return 0;
        d->clock += gap;
        d->passed += gap;
        if (d->rounds % RESTART == 0 && !boots(d))
            return 0;
        const uint32_t count = asks(d);
        if (count > TJERNFAUG_MOST_RAN || (d->rounds % WEEK == 0 && !saves(d)))
            return 0;
        for (uint32_t i = 0; i < count; i++)
            if (d->ran[i].slot == slot) {
                d->notice = d->ran[i].notice;
                return punctual ? d->passed == deadline : d->passed >= deadline;
            }
    }
    return 0;
}

/* The draws are 1800 s for T3247 and 900 s for T3346. */
static uint32_t heard(struct device *d, uint8_t protection, const uint8_t *msg, uint64_t len)
{
    return hand(d, TJERNFAUG_KIND_MESSAGE_DRAWS, d->body, tjernfaug_body_message_draws(0, protection, 1800, 900, msg, len, d->body, sizeof d->body));
}

/* The device sends these octets. What lies behind them stays, and in a buffer that is an octet too short all of it. */
static int sends(const struct device *d, const uint8_t *octets, size_t len)
{
    uint8_t sent[TJERNFAUG_LONGEST_REQUEST], kept[TJERNFAUG_LONGEST_REQUEST];
    memset(sent, 0xA5, sizeof sent);
    memset(kept, 0xA5, sizeof kept);
    return tjernfaug_request(&d->record, 0, sent, len - 1) == TJERNFAUG_REFUSED + TJERNFAUG_ANSWER_SHORT
        && tjernfaug_request(&d->record, 1, sent, sizeof sent) == TJERNFAUG_REFUSED + TJERNFAUG_ANSWER_STATE
        && tjernfaug_request(&d->record, 2, sent, sizeof sent) == TJERNFAUG_REFUSED + TJERNFAUG_ANSWER_RANGE && memcmp(sent, kept, sizeof sent) == 0
        && tjernfaug_request(&d->record, 0, sent, sizeof sent) == len && memcmp(sent, octets, len) == 0 && memcmp(sent + len, kept, sizeof sent - len) == 0;
}

/* With ngKSI 0, in an update: the clear part, then 71 and in it the whole request, with 10, the last area, the uplink data status and the session status. */
static int nested(const struct device *d, uint8_t type, uint8_t last)
{
    const uint8_t octets[] = {
        0x7E, 0x00, 0x41, type, 0x00, 0x09, 0x01, 0x00, 0xF1, 0x10, 0xF0, 0xFF, 0x00, 0x00, 0x07, 0x2E, 0x02, 0xF0, 0xF0, 0x71, 0x00, 0x25,
        0x7E, 0x00, 0x41, type, 0x00, 0x09, 0x01, 0x00, 0xF1, 0x10, 0xF0, 0xFF, 0x00, 0x00, 0x07, 0x10, 0x01, 0x00, 0x2E, 0x02, 0xF0, 0xF0,
        0x52, 0x00, 0xF1, 0x10, 0x00, 0x00, last, 0x40, 0x02, 0x20, 0x00, 0x50, 0x02, 0x20, 0x00,
    };
    return sends(d, octets, sizeof octets);
}

/* Power-up: the card, then its file. What it forbids is not started, nor is what has no such digits or no body. */
static int reads(struct device *d)
{
    const struct tjernfaug_entries *e = &d->record.e0;
    return taken(card(d)) && hand(d, TJERNFAUG_KIND_IMPORT, listed, sizeof listed - 1) == TJERNFAUG_ANSWER_RANGE
        && taken(hand(d, TJERNFAUG_KIND_IMPORT, listed, sizeof listed)) && start(d, BANNED) == TJERNFAUG_ANSWER_NETWORK_LISTED
        && start(d, tjernfaug_network(1000, 1, 2)) == TJERNFAUG_ANSWER_RANGE && hand(d, TJERNFAUG_KIND_START, d->body, 0) == TJERNFAUG_ANSWER_RANGE
        && d->record.hot.a0.entries == 1 && e->nets[0] == BANNED && e->forbidden[0] == 1 && e->bans[0] == 0;
}

/* The false cell, until the device is quiet. T3247 has not lifted what the card forbids. */
static int quiet(struct device *d)
{
    const struct tjernfaug_entries *e = &d->record.e0;
    uint32_t rejects = 0;
    while (rejects < 10 && taken(start(d, AWAY)) && runs(d, TJERNFAUG_T3510_0, 15) && sends(d, clear, sizeof clear)
           && taken(heard(d, 0, reject, sizeof reject)) && runs(d, TJERNFAUG_T3247, 1800) && wait(d, TJERNFAUG_T3247, 1800))
        rejects++;
    return rejects == 3 && start(d, AWAY) == TJERNFAUG_ANSWER_NETWORK_LISTED && start(d, BANNED) == TJERNFAUG_ANSWER_NETWORK_LISTED
        && e->nets[1] == AWAY && e->forbidden[1] == 1 && e->bans[1] == 3;
}

/* The cells heard: the false one's network twice, home, the one that the card forbids, another one, and home again. Over Wi-Fi no network is marked. */
static int chooses(struct device *d)
{
    const uint32_t cells[] = {AWAY, HOME, AWAY, BANNED, OTHER, HOME};
    enum { CELLS = sizeof cells / sizeof *cells };
    uint32_t permitted[CELLS] = {7, 7, 7, 7, 7, 7};
    return tjernfaug_cells(&d->record, 0, cells, CELLS, permitted, CELLS - 1) == TJERNFAUG_REFUSED + TJERNFAUG_ANSWER_SHORT
        && tjernfaug_cells(&d->record, 2, cells, CELLS, permitted, CELLS) == TJERNFAUG_REFUSED + TJERNFAUG_ANSWER_RANGE && permitted[0] == 7
        && tjernfaug_cells(&d->record, 0, cells, CELLS, permitted, CELLS) == 2 && permitted[0] == HOME && permitted[1] == OTHER && permitted[2] == 7
        && tjernfaug_cells(&d->record, 1, cells, CELLS, permitted, CELLS) == 4 && permitted[0] == AWAY;
}

/* At home in a busy hour: asked for time, the device may not start again until T3346 has run out, and then is asked to. */
static int busy(struct device *d)
{
    return taken(start(d, HOME)) && taken(key(d)) && taken(heard(d, 1, congestion, sizeof congestion)) && runs(d, TJERNFAUG_T3346_0, 600)
        && start(d, HOME) == TJERNFAUG_ANSWER_WAITING && wait(d, TJERNFAUG_T3346_0, 600) && d->notice.restart == 1;
}

/* An update, its request octet by octet, and its accept. */
static int moved(struct device *d, uint8_t type, uint8_t from, uint8_t to)
{
    return taken(update(d, type, to)) && runs(d, TJERNFAUG_T3510_0, 15) && nested(d, type, from)
        && taken(heard(d, 1, accept, sizeof accept - ELEMENT)) && runs(d, TJERNFAUG_T3512, 3600);
}

/* At home: registered, moved to the next area, and an update when T3512 has run out, not before. */
static int moves(struct device *d)
{
    return taken(start(d, HOME)) && taken(key(d)) && heard(d, 1, accept, sizeof accept - 1) == TJERNFAUG_ANSWER_PAST_END && d->notice.offset == 5
        && taken(heard(d, 1, accept, sizeof accept)) && d->notice.offset == 0 && runs(d, TJERNFAUG_T3512, 3600)
        && update(d, TJERNFAUG_TYPE_PERIODIC, HERE) == TJERNFAUG_ANSWER_STATE && moved(d, TJERNFAUG_TYPE_MOBILITY, HERE, NEXT)
        && wait(d, TJERNFAUG_T3512, 3600) && d->record.hot.dev.due == 1 && moved(d, TJERNFAUG_TYPE_PERIODIC, NEXT, NEXT)
        && d->record.hot.dev.due == 0;
}

/* The card's file, with the false cell's network too; one that is too short, or ends within a place, stays. A record just given that card reads it and writes the same. */
static int stores(struct device *d)
{
    static struct tjernfaug_record later;
    uint8_t file[sizeof stored], again[sizeof stored];
    const uint64_t len = tjernfaug_body_card(HOME, suci, sizeof suci, d->body, sizeof d->body);
    memset(file, 0xA5, sizeof file);
    memset(again, 0xA5, sizeof again);
    return tjernfaug_forbidden(&d->record, file, 3) == TJERNFAUG_REFUSED + TJERNFAUG_ANSWER_SHORT
        && tjernfaug_forbidden(&d->record, file, 7) == TJERNFAUG_REFUSED + TJERNFAUG_ANSWER_RANGE && memcmp(file, again, sizeof file) == 0
        && tjernfaug_forbidden(&d->record, file, sizeof file) == 2 && memcmp(file, stored, sizeof file) == 0
        && taken(opened(&later)) && taken(tjernfaug_event(&later, TJERNFAUG_KIND_CARD, d->body, len, &d->notice))
        && taken(tjernfaug_event(&later, TJERNFAUG_KIND_IMPORT, file, sizeof file, &d->notice))
        && tjernfaug_forbidden(&later, again, sizeof again) == 2 && memcmp(again, stored, sizeof again) == 0;
}

/*
 * Seventeen networks, 005-00 to 005-16, that turn the device away. Sixteen have an entry and a mark, so that the last is answer 4, and T3510 runs out over it. Then T3247 is out, and
 * when the device tries again, the first gives up its place.
 */
static int passes(struct device *d)
{
    const struct tjernfaug_entries *e = &d->record.e0;
    int right = taken(card(d));
    for (uint32_t i = 0; i < 17; i++)
        right &= taken(start(d, tjernfaug_network(5, i, 2)))
            && heard(d, 0, reject, sizeof reject) == (i < 16 ? TJERNFAUG_ANSWER_TAKEN : TJERNFAUG_ANSWER_FULL) && e->ranks[i % 16] == i % 16;
    return right && wait(d, TJERNFAUG_T3247, 1800) && d->record.hot.a0.attempts == 1 && taken(start(d, tjernfaug_network(5, 16, 2)))
        && taken(heard(d, 0, reject, sizeof reject)) && d->record.hot.a0.entries == 16
        && e->nets[0] == tjernfaug_network(5, 16, 2) && e->bans[0] == 1 && e->forbidden[0] == 1 && e->ranks[0] == 15 && e->ranks[1] == 0 && e->forbidden[1] == 0;
}

/* What the device brings from 4G, and the attach message that it had last. */
static const struct tjernfaug_s1 from_4g = {1, 1, 1, 1, 0, {0x00, 0xF1, 0x10, 0x80, 0x01, 0xC5, 0xD1, 0xC2, 0xB3, 0xA4}};
static const uint8_t attach[] = {0x07, 0x41};

/* An accept that gives a 5G-GUTI, with which the device would else open. */
static const uint8_t given[] = {0x7E, 0x00, 0x42, 0x01, 0x01, 0x77, 0x00, 0x0B, 0xF2, 0x00, 0xF2, 0x20, 0x11, 0x22, 0x83, 0x0A, 0x0B, 0x0C, 0x0D};
static const uint8_t opening[] = {0x7E, 0x00, 0x41, 0x71, 0x00, 0x0B, 0xF2, 0x00, 0xF2, 0x20, 0x11, 0x22, 0x83, 0x0A, 0x0B, 0x0C, 0x0D, 0x2E, 0x02, 0xF0, 0xF0};

/* With ngKSI 7: the mapped GUTI, 2E, then 77, 2B and 70. With ngKSI 0 the same three stand before 71 and end what it holds. */
static const uint8_t mapped[] = {
    0x7E, 0x00, 0x41, 0x71, 0x00, 0x0B, 0xF2, 0x00, 0xF1, 0x10, 0x80, 0x01, 0xC5, 0xD1, 0xC2, 0xB3, 0xA4, 0x2E, 0x02, 0xF0, 0xF0,
    0x77, 0x00, 0x0B, 0xF2, 0x00, 0xF2, 0x20, 0x11, 0x22, 0x83, 0x0A, 0x0B, 0x0C, 0x0D, 0x2B, 0x01, 0x00, 0x70, 0x00, 0x02, 0x07, 0x41,
};
static const uint8_t hidden[] = {
    0x7E, 0x00, 0x41, 0x01, 0x00, 0x0B, 0xF2, 0x00, 0xF1, 0x10, 0x80, 0x01, 0xC5, 0xD1, 0xC2, 0xB3, 0xA4, 0x2E, 0x02, 0xF0, 0xF0,
    0x77, 0x00, 0x0B, 0xF2, 0x00, 0xF2, 0x20, 0x11, 0x22, 0x83, 0x0A, 0x0B, 0x0C, 0x0D, 0x2B, 0x01, 0x00, 0x70, 0x00, 0x02, 0x07, 0x41, 0x71, 0x00, 0x35,
    0x7E, 0x00, 0x41, 0x01, 0x00, 0x0B, 0xF2, 0x00, 0xF1, 0x10, 0x80, 0x01, 0xC5, 0xD1, 0xC2, 0xB3, 0xA4, 0x10, 0x01, 0x00, 0x2E, 0x02, 0xF0, 0xF0,
    0x52, 0x00, 0xF2, 0x20, 0x00, 0x00, 0x2A,
    0x77, 0x00, 0x0B, 0xF2, 0x00, 0xF2, 0x20, 0x11, 0x22, 0x83, 0x0A, 0x0B, 0x0C, 0x0D, 0x2B, 0x01, 0x00, 0x70, 0x00, 0x02, 0x07, 0x41,
};

/* The device sends these octets with these facts lent. A refusal stores the length 0 and leaves the buffer. */
static int brings(const struct device *d, const struct tjernfaug_s1 *s1, const uint8_t *octets, size_t len)
{
    static const uint8_t endless[TJERNFAUG_LONGEST_ATTACH + 1];
    uint8_t sent[sizeof hidden + 1], kept[sizeof sent];
    uint64_t none[] = {7, 7}, written = 7;
    memset(sent, 0xA5, sizeof sent);
    memset(kept, 0xA5, sizeof kept);
    return tjernfaug_request_from_s1(&d->record, 0, s1, attach, sizeof attach, sent, len - 1, &none[0]) == TJERNFAUG_ANSWER_SHORT && none[0] == 0
        && tjernfaug_request_from_s1(&d->record, 0, s1, endless, sizeof endless, sent, sizeof sent, &none[1]) == TJERNFAUG_ANSWER_RANGE && none[1] == 0
        && memcmp(sent, kept, sizeof sent) == 0 && taken(tjernfaug_request_from_s1(&d->record, 0, s1, attach, sizeof attach, sent, sizeof sent, &written))
        && written == len && memcmp(sent, octets, len) == 0 && memcmp(sent + len, kept, sizeof sent - len) == 0;
}

static uint32_t card_of(struct device *d, uint8_t edition)
{
    return hand(d, TJERNFAUG_KIND_CARD_EDITION, d->body, tjernfaug_body_card_edition(edition, HOME, suci, sizeof suci, d->body, sizeof d->body));
}

/* A power cut, which the image outlives. The clock has begun anew, so that the table is made zero: they have parted, and no round is taken, until the power event has stopped all
 * timers. */
static int cut(struct device *d)
{
    const int booted = boots(d);
    memset(&d->table, 0, sizeof d->table);
    return booted && d->record.hot.dev.t3512 == 1 && tjernfaug_round(&d->record, &d->table, d->clock, d->ran, WORDS) == TJERNFAUG_REFUSED + TJERNFAUG_ANSWER_RANGE
        && taken(hand(d, TJERNFAUG_KIND_POWER, d->body, TJERNFAUG_BODY_POWER)) && tjernfaug_ask(&d->table, d->clock) == TJERNFAUG_NONE_DUE
        && tjernfaug_wait(&d->table, d->clock) == TJERNFAUG_LONGEST_WAIT
        && tjernfaug_round(&d->record, &d->table, d->clock, d->ran, WORDS - 1) == TJERNFAUG_REFUSED + TJERNFAUG_ANSWER_SHORT && asks(d) == 0;
}

/* A card of edition 2, which a power cycle leaves, and a 5G-GUTI from another network. The mapped GUTI opens the next request if no fact is missing. */
static int comes(struct device *d)
{
    struct tjernfaug_s1 lacking = from_4g;
    lacking.context = 0;
    return card_of(d, 4) == TJERNFAUG_ANSWER_RANGE && taken(card_of(d, TJERNFAUG_EDITION_SOURCE_002)) && taken(start(d, AWAY))
        && taken(heard(d, 1, given, sizeof given)) && cut(d)
        && d->record.hot.dev.edition == TJERNFAUG_EDITION_SOURCE_002 && taken(start(d, HOME)) && sends(d, opening, sizeof opening)
        && brings(d, &lacking, opening, sizeof opening) && brings(d, &from_4g, mapped, sizeof mapped)
        && taken(key(d)) && brings(d, &from_4g, hidden, sizeof hidden) && taken(heard(d, 1, accept, sizeof accept));
}

/* The longest T3512, in 17 laps; the clock wraps eight times on the way. */
static int lasts(struct device *d)
{
    return taken(update(d, TJERNFAUG_TYPE_MOBILITY, NEXT)) && taken(heard(d, 1, longest, sizeof longest)) && runs(d, TJERNFAUG_T3512, LONGEST)
        && wait(d, TJERNFAUG_T3512, LONGEST) && d->record.hot.dev.due == 1;
}

int main(int argc, char **argv)
{
    static const struct { int (*part)(struct device *); const char *told; } story[] = {
        {reads, "the card forbids a network"},
        {quiet, "three rejects, and quiet"},
        {chooses, "two of four networks may be tried"},
        {busy, "asked for time, and free again"},
        {moves, "registered, moved, and updated"},
        {stores, "two networks in the card's file"},
        {passes, "sixteen entries, and the seventeenth network in the place of the first"},
        {comes, "from 4G with a mapped GUTI"},
        {lasts, "T3512 out in the longest time that there is"},
    };
    static struct device d;
    if (argc != 2 || !(d.log = fopen(argv[1], "wb")))
        return 2;
    d.clock = begin;
    int right = taken(opened(&d.record)) && saves(&d);
    for (size_t i = 0; right && i < sizeof story / sizeof *story; i++) {
        right = story[i].part(&d);
        fprintf(stderr, "device: %s%s, after %" PRIu64 " s\n", right ? "" : "wrong: ", story[i].told, d.passed / 1000);
    }
    right &= fclose(d.log) == 0;
    return !right;
}
