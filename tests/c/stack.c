/*
 * The stack that each call takes. A call runs on a stack of its own, which was painted before: what is no longer paint was used. The records are new ones, ones that are none, and
 * ones with empty and with full tables, in every state; events, messages and buffers are of every kind.
 * Prints a line for each call: the most that it took, with its return address and the arguments that are handed over on the stack, and its bound. Ends with 1 if one took more.
 */
#include <stdio.h>
#include <string.h>
#include <ucontext.h>
#include "tjernfaug.h"

enum { ROOM = 65536, PAINT = 0xA5 };

static _Alignas(64) uint8_t stack[ROOM];
static ucontext_t here, there;

/* What the calls are made with. */
static const uint8_t octets[14] = {0xF0, 0xF0};
static struct tjernfaug_record record;
static struct tjernfaug_notice notice;
static uint32_t heard[TJERNFAUG_MOST_CELLS + 1], permitted[TJERNFAUG_MOST_CELLS + 1], kind, answer;
static uint8_t access, limit, buffer[256];
static size_t len;

/* The records' edition, what a device brings from 4G, and room for the longest request with it. */
static struct tjernfaug_s1 s1;
static uint8_t edition = TJERNFAUG_EDITION_SOURCE_001, attach[TJERNFAUG_LONGEST_ATTACH + 1], wide[TJERNFAUG_LONGEST_REQUEST_FROM_S1 + 1];
static size_t attach_len;
static uint64_t written;

/* A table of deadlines, the clock's time, and a round's list, of which so many numbers are lent. */
static struct tjernfaug_deadlines table;
static struct tjernfaug_ran ran[TJERNFAUG_MOST_RAN + 1];
static uint32_t now;

/* An image and its serial. */
static uint8_t image[TJERNFAUG_IMAGE + 1];
static uint32_t serial;

static void nothing(void) { answer = 0; }
static void new(void) { answer = tjernfaug_new(&record, limit, limit, limit, octets, len, octets, 8); }
static void event(void) { answer = tjernfaug_event(&record, kind, buffer, len, &notice); }
static void request(void) { answer = tjernfaug_request(&record, access, buffer, len); }
static void from_s1(void) { answer = tjernfaug_request_from_s1(&record, access, &s1, attach, attach_len, wide, len, &written); }
static void cells(void) { answer = tjernfaug_cells(&record, access, heard, len, permitted, len); }
static void forbidden(void) { answer = tjernfaug_forbidden(&record, buffer, len); }
static void arm(void) { answer = tjernfaug_arm(&table, now, &notice); }
static void ask(void) { answer = tjernfaug_ask(&table, now); }
static void round_of(void) { answer = tjernfaug_round(&record, &table, now, ran, len); }
static void rest(void) { answer = tjernfaug_wait(&table, now); }
static void save(void) { answer = tjernfaug_save(&record, &table, serial, image, len); }
static void load(void) { answer = tjernfaug_load(&record, &table, &serial, image, len); }
static void cause(void) { answer = reject_cause(buffer, len); }
static void seconds(void) { answer = timer_seconds(limit); }

/* One call on the painted stack. How many were taken: their answer is at most the last that is no refusal. */
static uint32_t last, taken;
static void on(void (*call)(void))
{
    getcontext(&there);
    there.uc_stack.ss_sp = stack;
    there.uc_stack.ss_size = sizeof stack;
    there.uc_link = &here;
    makecontext(&there, call, 0);
    swapcontext(&here, &there);
    taken += answer <= last;
}

static size_t used(void)
{
    size_t at = 0;
    while (at < ROOM && stack[at] == PAINT)
        at++;
    return ROOM - at;
}

/* An access with all that it can hold but T3346, and entries that all have a mark or none. */
static void fill(struct tjernfaug_access *a, struct tjernfaug_entries *e, uint8_t state, uint8_t regtype, uint8_t mark)
{
    a->state = state;
    a->regtype = regtype;
    a->uplink = a->sessions = 0xFFFE;
    a->net = 0x00F220;
    a->guti = a->visited = a->t3511 = a->t3502 = 1;
    a->t3510 = state == 4;
    a->ksi = 0;
    a->equivalents = 15;
    a->entries = 16;
    for (uint8_t i = 0; i < 16; i++) {
        e->nets[i] = 0x00F500u + i % 10 * 16 + i / 10;
        e->bans[i] = e->n1s[i] = 1;
        e->forbidden[i] = e->barred[i] = mark;
        e->ranks[i] = i;
    }
}

/* The record of a round, by state, type, mark and shape. */
enum { NEW, NONE, EMPTY, WAITING, FULL, SHAPES, ROUNDS = 7 * 3 * 2 * SHAPES };
static void lay(unsigned round)
{
    const uint8_t state = (uint8_t)(round % 7), regtype = (uint8_t)(1 + round / 7 % 3), mark = round / 21 % 2;
    struct tjernfaug_hot *hot = &record.hot;
    tjernfaug_new(&record, 10, 10, 10, octets, 13, octets, 8);
    if (round / 42 == NEW)
        return;
    hot->dev.card = hot->dev.t3247 = hot->dev.t3512 = hot->dev.due = record.suci[0] = 1;
    hot->dev.suci = 64;
    hot->dev.edition = edition;
    hot->dev.roaming = hot->dev.regional = 40;
    for (uint64_t i = 0; i < 40; i++)
        record.roaming[i] = record.regional[i] = (0x00F220000000 + i) * 2 + i % 2;
    fill(&hot->a0, &record.e0, state, regtype, mark);
    fill(&hot->a1, &record.e1, state, regtype, !mark);
    switch (round / 42) {
    case NONE: hot->a0.status = 9; break;
    case EMPTY: hot->a0.entries = hot->a1.entries = hot->dev.roaming = hot->dev.regional = 0; break;
    case WAITING: hot->a0.t3346 = hot->a1.t3346 = 1; break;
    }
}

/* An event on the record of each round, over both accesses: the octet at a place says which. */
static void hand(uint32_t k, const void *body, size_t n, size_t at)
{
    for (unsigned round = 0; round < 2 * ROUNDS; round++) {
        lay(round / 2);
        memset(buffer, 0, sizeof buffer);
        memcpy(buffer, body, n);
        if (at < n)
            buffer[at] = round % 2;
        kind = k;
        len = n;
        on(event);
    }
}

/* A message with one draw and with both, not protected and protected. */
static void message(const void *text, size_t n)
{
    for (unsigned way = 0; way < 4; way++) {
        const size_t head = way / 2 ? 6 : 4;
        uint8_t body[128] = {0, way % 2, 0x08, 0x07, 0x84, 0x03};
        memcpy(body + head, text, n);
        hand(way / 2 ? TJERNFAUG_KIND_MESSAGE_DRAWS : TJERNFAUG_KIND_MESSAGE, body, head + n, 0);
    }
}

/* Rejects with T3346, an accept with all that is read of one, and one of each fault. */
static void messages(void)
{
    static const uint8_t causes[] = {3, 6, 7, 11, 12, 13, 15, 22, 27, 72, 73, 95, 111, 200};
    static const uint8_t accept[28 + 45] = {0x7E, 0, 0x42, 1, 1, 0x77, 0, 11, 0xF2, 0, 0xF2, 0x20, [19] = 0x16, 1, 0x2A, 0x5E, 1, 0x21, 0x90, 0x4A, 45};
    static const uint8_t faults[][6] = {{0x7D}, {0x7E, 1}, {0x7E, 0, 0x99}, {0x7E, 0, 0x42}, {0x7E, 0, 0x44, 11, 0x77, 1}, {0x7E, 0, 0x44, 11, 5, 0}};
    for (size_t i = 0; i < sizeof causes; i++)
        message((const uint8_t[]){0x7E, 0, 0x44, causes[i], 0x5F, 1, 0x2A}, 7);
    message(accept, sizeof accept);
    for (size_t i = 0; i < sizeof faults / sizeof *faults; i++)
        message(faults[i], sizeof *faults);
}

static void events(void)
{
    static const uint8_t card[67] = {0, 0xF1, 0x10, 1}, of_edition[68] = {3, 0, 0xF1, 0x10, 1}, start[] = {0, 1, 0, 0xF3, 0x30, 0, 0, 0x2A}, listed[] = {0, 0, 0, 0xF5, 0, 0, 0, 0x2A};
    uint8_t update[] = {0, 2, 0, 0xF2, 0x20, 0, 0, 0x2A, 0xFE, 0xFF, 0xFE, 0xFF}, file[3 * 16];
    hand(TJERNFAUG_KIND_CARD, card, sizeof card, sizeof card);
    hand(TJERNFAUG_KIND_CARD_EDITION, of_edition, sizeof of_edition, sizeof of_edition);
    hand(TJERNFAUG_KIND_START, start, sizeof start, 0);
    hand(TJERNFAUG_KIND_START, listed, sizeof listed, 0);
    for (; update[1] <= 3; update[1]++)
        hand(TJERNFAUG_KIND_UPDATE, update, sizeof update, 0);
    for (uint8_t number = 1; number <= 7; number++)
        hand(TJERNFAUG_KIND_TIMER, (const uint8_t[]){number, 0}, 2, 1);
    hand(TJERNFAUG_KIND_KEY, (const uint8_t[]){0, 3}, 2, 0);
    hand(TJERNFAUG_KIND_POWER, "", 0, 0);
    for (uint8_t i = 0; i < 16; i++)
        memcpy(file + 3 * i, (const uint8_t[]){0, 0xF5, (uint8_t)(i % 10 * 16 + i / 10)}, 3);
    for (size_t n = 0; n <= sizeof file; n += 16)
        hand(TJERNFAUG_KIND_IMPORT, file, n, n);
    hand(9, start, sizeof start, 0);
    messages();
}

/* Over both accesses, and one that is none, a call with each of these lengths. */
static void lengths(void (*call)(void), const size_t *lens, size_t n)
{
    for (unsigned round = 0; round < ROUNDS; round++)
        for (access = 0; access < 3; access++)
            for (size_t i = 0; i < n; i++) {
                lay(round);
                len = lens[i];
                on(call);
            }
}

static void news(void)
{
    for (limit = 0; limit <= 11; limit++)
        for (len = 0; len <= sizeof octets; len++)
            on(new);
}

static void requests(void) { lengths(request, (const size_t[]){0, 12, 80, 192, TJERNFAUG_LONGEST_REQUEST, sizeof buffer}, 6); }

/* With each edition; no attach message, a short one, the longest and one that is too long; all facts but the last, and all. */
static void requests_from_s1(void)
{
    static const size_t messages[] = {0, 2, TJERNFAUG_LONGEST_ATTACH, sizeof attach};
    s1.registered = s1.n26 = s1.context = s1.valid = 1;
    for (unsigned way = 0; way < 3 * 4 * 2; way++) {
        edition = (uint8_t)(1 + way % 3);
        attach_len = messages[way / 3 % 4];
        s1.native = way / 12 != 0;
        lengths(from_s1, (const size_t[]){0, 80, TJERNFAUG_LONGEST_REQUEST, TJERNFAUG_LONGEST_REQUEST_FROM_S1 - 1, sizeof wide}, 5);
    }
}

static void files(void) { lengths(forbidden, (const size_t[]){0, 3, 4, TJERNFAUG_LONGEST_LIST, 255}, 5); }

static void choices(void)
{
    for (uint32_t i = 0; i <= TJERNFAUG_MOST_CELLS; i++)
        heard[i] = 0x00F500 + i;
    lengths(cells, (const size_t[]){0, 1, TJERNFAUG_MOST_CELLS, TJERNFAUG_MOST_CELLS + 1}, 4);
}

static void readings(void)
{
    static const uint8_t reject[] = {0x7E, 0, 0x44, 11, 0x90, 0x5F, 1, 0x2A, 0x77, 0, 1, 0, 0x16, 2, 0, 0};
    memcpy(buffer, reject, sizeof reject);
    for (len = 0; len <= sizeof reject; len++)
        for (buffer[2] = 0x42; buffer[2] <= 0x44; buffer[2]++)
            on(cause);
}

static void timers(void)
{
    for (unsigned i = 0; i < 256; i++) {
        limit = (uint8_t)i;
        on(seconds);
    }
}

/* The record's timers have deadlines: by way 0 none is past, by 1 all are, T3510 the furthest, by 2 all equally far; by 3 all are in a lap that is over, by 4 in one that is long over. */
enum { WAYS = 5 };
static void set(unsigned way)
{
    const struct tjernfaug_access *a = &record.hot.a0, *b = &record.hot.a1;
    const uint8_t runs[TJERNFAUG_SLOTS] = {a->t3510, b->t3510, a->t3511, b->t3511, a->t3502, b->t3502, a->t3346, b->t3346, record.hot.dev.t3512, record.hot.dev.t3247};
    static const uint32_t late[WAYS] = {UINT32_MAX, 10000, 600000, 1, INT32_MAX};
    static const uint64_t rests[WAYS] = {0, 0, 0, 1, UINT64_C(35712000000)};
    for (uint32_t slot = 0; slot < TJERNFAUG_SLOTS; slot++) {
        table.held[slot] = runs[slot];
        table.ends[slot] = now - late[way] + (way == 1 ? slot : 0);
        table.rests[slot] = rests[way];
    }
}

/* Asking rounds on all the records, with lists that are too short, just long enough and longer. T3510 starts T3502 for 0 s, and in some round all ten timers run out, or none was taken. */
static void asking(void)
{
    enum { WORDS = TJERNFAUG_MOST_RAN * TJERNFAUG_RAN_WORDS };
    static const size_t lens[] = {0, WORDS - 1, WORDS, WORDS + TJERNFAUG_RAN_WORDS};
    uint32_t most = 0;
    for (unsigned i = 0; i < ROUNDS * WAYS * 4; i++) {
        struct tjernfaug_hot *hot = &record.hot;
        lay(i / WAYS / 4);
        hot->a0.attempts = hot->a1.attempts = 5;
        hot->a0.t3502length = hot->a1.t3502length = 0;
        now = i % 2 ? 5000 : UINT32_MAX;
        set(i / 4 % WAYS);
        len = lens[i % 4];
        on(round_of);
        most = answer < TJERNFAUG_REFUSED && answer > most ? answer : most;
    }
    taken = most == TJERNFAUG_SLOTS ? taken : 0;
}

/* A call on the tables of all the records. */
static void tables(void (*call)(void))
{
    for (unsigned i = 0; i < ROUNDS * WAYS; i++) {
        lay(i / WAYS);
        set(i % WAYS);
        on(call);
    }
}

/* A save or a load of an image of all the records, in buffers that are too short, just long enough and longer; of some the last octet but one is another, and of some the version. */
static void images(void (*call)(void))
{
    static const size_t lens[] = {0, TJERNFAUG_IMAGE - 1, TJERNFAUG_IMAGE, sizeof image};
    for (unsigned i = 0; i < ROUNDS * 4 * 3; i++) {
        lay(i / 12);
        set(i % WAYS);
        tjernfaug_save(&record, &table, i, image, sizeof image);
        image[TJERNFAUG_IMAGE - 2] ^= i / 4 % 3 == 1;
        image[4] ^= i / 4 % 3 == 2;
        len = lens[i % 4];
        on(call);
    }
}

static void saved(void) { images(save); }
static void loaded(void) { images(load); }
static void asked(void) { tables(ask); }
static void rested(void) { tables(rest); }

/* Each timer left, stopped, started for no time and for the longest, and told what there is not. */
static void armed(void)
{
    for (uint32_t i = 0; i < 5; i++)
        for (uint32_t other = 0; other < 5; other++) {
            const struct tjernfaug_timer one = {i < 3 ? i : i - 1, i == 3 ? 0 : 35712000}, two = {other < 3 ? other : other - 1, UINT32_MAX};
            const struct tjernfaug_timers all = {one, two, one, two};
            notice.c0 = notice.c1 = all;
            notice.t3247 = one;
            notice.t3512 = two;
            on(arm);
        }
}

/* The bounds, in octets. docs/FIRMWARE.md says the same, which tests/archives sees. Beside them the last answer that is no refusal. */
static const struct { const char *name; size_t bound; uint32_t last; void (*cases)(void); } calls[] = {
    {"tjernfaug_new", 2048, 0, news},
    {"tjernfaug_event", 4096, 0, events},
    {"tjernfaug_arm", 512, 0, armed},
    {"tjernfaug_ask", 512, 10, asked},
    {"tjernfaug_round", 3072, 12, asking},
    {"tjernfaug_wait", 512, TJERNFAUG_LONGEST_WAIT, rested},
    {"tjernfaug_request", 2560, 255, requests},
    {"tjernfaug_request_from_s1", 2560, 0, requests_from_s1},
    {"tjernfaug_cells", 512, 255, choices},
    {"tjernfaug_forbidden", 512, 255, files},
    {"tjernfaug_save", 512, 0, saved},
    {"tjernfaug_load", 8192, 0, loaded},
    {"reject_cause", 1024, 255, readings},
    {"timer_seconds", 256, 65535, timers},
};

int main(void)
{
    int wrong = 0;
    for (size_t i = 0; i < sizeof calls / sizeof *calls; i++) {
        memset(stack, PAINT, sizeof stack);
        last = calls[i].last;
        on(nothing);
        const size_t before = used();
        taken = 0;
        calls[i].cases();
        const size_t took = used() - before;
        const int good = took <= calls[i].bound && taken > 0;
        printf("%s %zu octets of stack, at most %zu%s\n", calls[i].name, took, calls[i].bound, good ? "" : taken ? ": TOO MUCH" : ": NONE WAS TAKEN");
        wrong |= !good;
    }
    return wrong;
}
