/*
 * The C side of the fuzz run: makes each call that standard input asks for and writes what came of it, as tests/c/fuzz.rs says.
 * What is lent ends where nothing may be read or written, and octets that must stay lie before it. A record, a notice, the facts of 4G and a table of deadlines go in and out field by
 * field, by the header's names, and with them the length and the serial that calls store.
 */
#define _DEFAULT_SOURCE
#include <stddef.h>
#include <stdio.h>
#include <stdlib.h>
#include <string.h>
#include <sys/mman.h>
#include "tjernfaug.h"

enum { FLUSH, NEW, EVENT, REQUEST, CAUSE, CELLS, FORBIDDEN, FROM_S1, ARM, ASK, ROUND, WAIT, SAVE, LOAD };
enum { RECORD, NOTICE, FACTS, LENGTH, SERIAL, TABLE, FIRST, SECOND, ROOMS };
enum { ROOM = 262144, GUARD = 64, MARK = 0x5A };

/* What a call is asked with, ahead of the record, the notice, the facts, the length, the serial, the table and the octets of one or two arrays. kind is the clock's time too, and the
 * serial of an image to be saved. */
struct head {
    uint8_t call;
    uint8_t gaps;
    uint8_t small[6];
    uint32_t kind;
    uint32_t lens[2];
};

#define PLACE(room, name, field) {room, offsetof(struct name, field), sizeof ((struct name *)0)->field}
#define AT(field) PLACE(RECORD, tjernfaug_record, field)
#define ACCESS(a) AT(a.net), AT(a.code), AT(a.lastnet), AT(a.lastcode), AT(a.t3502length), AT(a.uplink), AT(a.sessions), AT(a.state), AT(a.status), AT(a.attempts), \
    AT(a.cardcounter), AT(a.t3510), AT(a.t3511), AT(a.t3502), AT(a.guti), AT(a.visited), AT(a.ksi), AT(a.equivalents), AT(a.entries), AT(a.regtype), AT(a.t3346)
#define ENTRIES(e) AT(e.nets), AT(e.bans), AT(e.n1s), AT(e.forbidden), AT(e.barred), AT(e.ranks)
#define TOLD(field) PLACE(NOTICE, tjernfaug_notice, field)
#define TIMER(t) TOLD(t.told), TOLD(t.seconds)
#define TIMERS(c) TIMER(c.t3510), TIMER(c.t3511), TIMER(c.t3502), TIMER(c.t3346)
#define FACT(field) PLACE(FACTS, tjernfaug_s1, field)
#define COLUMN(field) PLACE(TABLE, tjernfaug_deadlines, field)

static const struct { size_t room, at, len; } fields[] = {
    AT(hot.dev.home), AT(hot.dev.t3512length), AT(hot.dev.card), AT(hot.dev.suci), AT(hot.dev.cardlimit), AT(hot.dev.banlimit), AT(hot.dev.n1limit),
    AT(hot.dev.t3247), AT(hot.dev.t3512), AT(hot.dev.due), AT(hot.dev.capability), AT(hot.dev.security), AT(hot.dev.roaming), AT(hot.dev.regional), AT(hot.dev.edition),
    ACCESS(hot.a0), ACCESS(hot.a1), ENTRIES(e0), ENTRIES(e1), AT(roaming), AT(regional),
    AT(guti0), AT(guti1), AT(equivalents0), AT(equivalents1), AT(suci), AT(capability), AT(security),
    TOLD(offset), TIMERS(c0), TIMERS(c1), TIMER(t3247), TIMER(t3512), TOLD(restart), TOLD(leave), TOLD(update), TOLD(changed),
    FACT(registered), FACT(n26), FACT(context), FACT(valid), FACT(native), FACT(guti), {LENGTH, 0, sizeof(uint64_t)},
    {SERIAL, 0, sizeof(uint32_t)}, COLUMN(rests), COLUMN(ends), COLUMN(held),
};

enum { FIELDS = sizeof fields / sizeof *fields };

static uint8_t *ends[ROOMS], *lent[ROOMS];
static size_t lens[ROOMS];

/* All of them without their gaps. */
static uint8_t plain[sizeof(struct tjernfaug_record) + sizeof(struct tjernfaug_notice) + sizeof(struct tjernfaug_s1) + sizeof(uint64_t) + sizeof(uint32_t)
                     + sizeof(struct tjernfaug_deadlines)];
static uint32_t octets;

static void get(void *at, size_t len)
{
    if (len && fread(at, len, 1, stdin) != 1)
        exit(2);
}

static void put(const void *at, size_t len)
{
    if (len && fwrite(at, len, 1, stdout) != 1)
        exit(2);
}

/* Two rooms, of which the second is closed; the end of the first. */
static uint8_t *room(void)
{
    uint8_t *at = mmap(NULL, 2 * ROOM, PROT_READ | PROT_WRITE, MAP_PRIVATE | MAP_ANONYMOUS, -1, 0);
    if (at == MAP_FAILED || mprotect(at + ROOM, ROOM, PROT_NONE))
        exit(2);
    return at + ROOM;
}

/* Lays out what is lent, as it was sent. */
static void lay(const struct head *h)
{
    const size_t sizes[ROOMS] = {
        sizeof(struct tjernfaug_record), sizeof(struct tjernfaug_notice), sizeof(struct tjernfaug_s1), sizeof(uint64_t), sizeof(uint32_t), sizeof(struct tjernfaug_deadlines),
        h->lens[0], h->lens[1],
    };
    for (size_t i = 0; i < ROOMS; i++) {
        if (sizes[i] > ROOM - GUARD)
            exit(2);
        lens[i] = sizes[i];
        lent[i] = ends[i] - sizes[i];
        memset(lent[i] - GUARD, MARK, GUARD);
    }
    for (size_t i = RECORD; i < FIRST; i++)
        memset(lent[i], h->gaps, lens[i]);
    get(plain, octets);
    const uint8_t *from = plain;
    for (size_t i = 0; i < FIELDS; from += fields[i++].len)
        memcpy(lent[fields[i].room] + fields[i].at, from, fields[i].len);
    for (size_t i = FIRST; i < ROOMS; i++)
        get(lent[i], lens[i]);
}

/* Two arrays of whole numbers, which are aligned as they end with their rooms. */
static uint32_t cells(const struct tjernfaug_record *r, uint8_t access)
{
    const size_t size = sizeof(uint32_t);
    if (lens[FIRST] % size || lens[SECOND] % size)
        exit(2);
    return tjernfaug_cells(r, access, (const uint32_t *)lent[FIRST], lens[FIRST] / size, (uint32_t *)lent[SECOND], lens[SECOND] / size);
}

/* The attach message is the first array, and the buffer the second. */
static uint32_t from_s1(const struct tjernfaug_record *r, uint8_t access)
{
    const struct tjernfaug_s1 *s1 = (const struct tjernfaug_s1 *)lent[FACTS];
    return tjernfaug_request_from_s1(r, access, s1, lent[FIRST], lens[FIRST], lent[SECOND], lens[SECOND], (uint64_t *)lent[LENGTH]);
}

/* The list is the second array, of whole pairs of numbers, so that it is aligned as it ends with its room. So many of the last numbers are not lent. */
static uint32_t round_of(struct tjernfaug_record *r, struct tjernfaug_deadlines *t, uint32_t now, uint8_t kept)
{
    const size_t words = lens[SECOND] / sizeof(uint32_t);
    if (lens[SECOND] % sizeof(uint64_t) || kept > words)
        exit(2);
    return tjernfaug_round(r, t, now, (struct tjernfaug_ran *)lent[SECOND], words - kept);
}

static uint32_t call(const struct head *h)
{
    struct tjernfaug_record *r = (struct tjernfaug_record *)lent[RECORD];
    struct tjernfaug_notice *notice = (struct tjernfaug_notice *)lent[NOTICE];
    struct tjernfaug_deadlines *t = (struct tjernfaug_deadlines *)lent[TABLE];
    switch (h->call) {
    case NEW: return tjernfaug_new(r, h->small[0], h->small[1], h->small[2], lent[FIRST], lens[FIRST], lent[SECOND], lens[SECOND]);
    case EVENT: return tjernfaug_event(r, h->kind, lent[FIRST], lens[FIRST], notice);
    case REQUEST: return tjernfaug_request(r, h->small[0], lent[FIRST], lens[FIRST]);
    case CAUSE: return reject_cause(lent[FIRST], lens[FIRST]);
    case CELLS: return cells(r, h->small[0]);
    case FORBIDDEN: return tjernfaug_forbidden(r, lent[FIRST], lens[FIRST]);
    case FROM_S1: return from_s1(r, h->small[0]);
    case ARM: return tjernfaug_arm(t, h->kind, notice);
    case ASK: return tjernfaug_ask(t, h->kind);
    case ROUND: return round_of(r, t, h->kind, h->small[0]);
    case WAIT: return tjernfaug_wait(t, h->kind);
    case SAVE: return tjernfaug_save(r, t, h->kind, lent[FIRST], lens[FIRST]);
    case LOAD: return tjernfaug_load(r, t, (uint32_t *)lent[SERIAL], lent[FIRST], lens[FIRST]);
    default: exit(2);
    }
}

/* The answer, how many octets before what is lent were written, and all that is lent. */
static void tell(uint32_t answer)
{
    uint32_t harm = 0;
    for (size_t i = 0; i < ROOMS; i++)
        for (size_t j = 1; j <= GUARD; j++)
            harm += lent[i][-(ptrdiff_t)j] != MARK;
    put(&answer, sizeof answer);
    put(&harm, sizeof harm);
    uint8_t *to = plain;
    for (size_t i = 0; i < FIELDS; to += fields[i++].len)
        memcpy(to, lent[fields[i].room] + fields[i].at, fields[i].len);
    put(plain, octets);
    for (size_t i = FIRST; i < ROOMS; i++)
        put(lent[i], lens[i]);
}

int main(void)
{
    struct head h;
    for (size_t i = 0; i < ROOMS; i++)
        ends[i] = room();
    for (size_t i = 0; i < FIELDS; i++)
        octets += (uint32_t)fields[i].len;
    setvbuf(stdin, NULL, _IOFBF, ROOM);
    setvbuf(stdout, NULL, _IOFBF, ROOM);
    const uint32_t sizes[] = {
        octets, TJERNFAUG_LONGEST_REQUEST, TJERNFAUG_MOST_CELLS, TJERNFAUG_LONGEST_LIST, TJERNFAUG_LONGEST_ATTACH, TJERNFAUG_LONGEST_REQUEST_FROM_S1,
        TJERNFAUG_RAN_WORDS, TJERNFAUG_MOST_RAN, TJERNFAUG_NONE_DUE, TJERNFAUG_LONGEST_WAIT, TJERNFAUG_IMAGE,
    };
    put(sizes, sizeof sizes);
    fflush(stdout);
    while (fread(&h, sizeof h, 1, stdin) == 1) {
        if (h.call == FLUSH) {
            fflush(stdout);
            continue;
        }
        lay(&h);
        tell(call(&h));
    }
    return 0;
}
