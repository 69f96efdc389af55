/*
 * The two slots of docs/FIRMWARE.md's "Saving the record": its `keep` and `boot`, which tests/c/run takes from the page as slots.h, on a flash in memory. A router goes through a card,
 * starts, a reject, T3247, an accept and a power cycle, and each time the record is kept. At every octet that `keep` erases or writes the power is cut; that octet stays, or holds
 * anything, or all of the slot does. It boots, and what comes back has to be the older or the newer record, with its table and serial. From there it goes on, and the next `keep` is
 * cut too, anywhere.
 * With SAME_SLOT every image is written to slot 0, and that has to fail.
 */
#include <stdio.h>
#include <string.h>
#include "tjernfaug.h"

/* The octets of a slot, and how many octets are erased and written to keep an image. */
enum { BLOCK = TJERNFAUG_IMAGE + 100, STEPS = BLOCK + TJERNFAUG_IMAGE };
static uint8_t flash[2][BLOCK];

/* At which octet from here on the power goes, 0 once it has gone; and what becomes of that octet. */
enum { STAYS, ANY, ALL, WAYS };
static uint32_t left, way;

static uint32_t draw(void)
{
    static uint32_t drawn = 1;
    drawn = drawn * 1664525 + 1013904223;
    return drawn >> 16;
}

/* The power goes at this octet. */
static void tear(uint8_t *block, size_t at)
{
    if (way == ANY)
        block[at] = (uint8_t)draw();
    for (size_t i = 0; way == ALL && i < BLOCK; i++)
        block[i] = (uint8_t)draw();
}

/* To erase sets all bits of an octet, and to write clears some. */
static void put(int s, size_t at, uint8_t set, uint8_t octet)
{
#ifdef SAME_SLOT
    s = 0;
#endif
    if (left > 1)
        flash[s][at] = (uint8_t)((flash[s][at] | set) & octet);
    if (left == 1)
        tear(flash[s], at);
    left -= left > 0;
}

static void flash_erase(int s)
{
    for (size_t i = 0; i < BLOCK; i++)
        put(s, i, 0xFF, 0xFF);
}

static void flash_write(int s, const uint8_t *octets, size_t len)
{
    for (size_t i = 0; i < len; i++)
        put(s, i, 0, octets[i]);
}

static void flash_read(int s, uint8_t *octets, size_t len)
{
    memcpy(octets, flash[s], len);
}

#include "slots.h"

/* The image of what is whole in flash, and whether anything is; how often the power was cut, and how often the older and the newer record came back. */
static uint8_t held[TJERNFAUG_IMAGE];
static int any;
static uint32_t cuts, olds, news;

/* A power cut leaves the flash alone: the numbers begin with 0 again, and in the record there may be anything. */
static void forget(void)
{
    memset(&record, 0xA5, sizeof record);
    memset(&table, 0xA5, sizeof table);
    memset(image, 0xA5, sizeof image);
    serial = 0;
    slot = 0;
}

/* The record is kept, with the power cut at a step, and the router boots: right is the older or the newer record, and without a cut the newer; none is right where none was kept. */
static int survives(uint32_t step, uint32_t torn)
{
    const int had = any;
    uint8_t older[TJERNFAUG_IMAGE], newer[TJERNFAUG_IMAGE];
    memcpy(older, held, sizeof held);
    if (tjernfaug_save(&record, &table, serial + 1, newer, sizeof newer) != TJERNFAUG_ANSWER_TAKEN)
        return 0;
    left = step;
    way = torn;
    keep();
    forget();
    any = boot();
    cuts += step <= STEPS;
    if (!any)
        return !had && step <= STEPS;
    if (tjernfaug_save(&record, &table, serial, held, sizeof held) != TJERNFAUG_ANSWER_TAKEN)
        return 0;
    const int old = had && memcmp(held, older, sizeof held) == 0, young = memcmp(held, newer, sizeof held) == 0;
    olds += (uint32_t)old;
    news += (uint32_t)young;
    return young || (old && step <= STEPS);
}

static struct tjernfaug_notice notice;
static struct tjernfaug_ran ran[TJERNFAUG_MOST_RAN];
static uint8_t body[TJERNFAUG_LONGEST_CARD];
static uint32_t now = UINT32_MAX - 1000000;

/* An event that changes the record. */
static int hand(uint32_t kind, uint64_t len)
{
    const uint32_t answer = tjernfaug_event(&record, kind, body, len, &notice);
    return tjernfaug_arm(&table, now, &notice) == TJERNFAUG_ANSWER_TAKEN && answer == TJERNFAUG_ANSWER_TAKEN && notice.changed == 1;
}

static int fresh(void)
{
    static const uint8_t capability[] = {0x00}, security[] = {0xF0, 0xF0};
    memset(&table, 0, sizeof table);
    return tjernfaug_new(&record, 3, 3, 3, capability, sizeof capability, security, sizeof security) == TJERNFAUG_ANSWER_TAKEN;
}

static int card(void)
{
    static const uint8_t suci[] = {0x01, 0x00, 0xF1, 0x10, 0xF0, 0xFF, 0x00, 0x00, 0x07};
    return hand(TJERNFAUG_KIND_CARD, tjernfaug_body_card(tjernfaug_network(1, 1, 2), suci, sizeof suci, body, sizeof body));
}

static int start(void)
{
    return hand(TJERNFAUG_KIND_START, tjernfaug_body_start(0, 0, tjernfaug_network(2, 2, 2), 0x2A, body, sizeof body));
}

static int rejected(void)
{
    static const uint8_t msg[] = {0x7E, 0x00, 0x44, 0x0B};
    return hand(TJERNFAUG_KIND_MESSAGE_DRAWS, tjernfaug_body_message_draws(0, 0, 1800, 900, msg, sizeof msg, body, sizeof body));
}

/* T3247 runs out. */
static int lifted(void)
{
    now += 1800000;
    return tjernfaug_round(&record, &table, now, ran, TJERNFAUG_MOST_RAN * TJERNFAUG_RAN_WORDS) == 1 && ran[0].notice.changed == 1;
}

/* With a GUTI, and T3512 in seventeen laps. */
static int accepted(void)
{
    static const uint8_t msg[] = {0x7E, 0x00, 0x42, 0x01, 0x01, 0x77, 0x00, 0x0B, 0xF2, 0x00, 0xF2, 0x20, 0x11, 0x22, 0x83, 0x0A, 0x0B, 0x0C, 0x0D, 0x5E, 0x01, 0xDF};
    return hand(TJERNFAUG_KIND_MESSAGE_DRAWS, tjernfaug_body_message_draws(0, 1, 1800, 900, msg, sizeof msg, body, sizeof body));
}

/* As at a boot, the clock begun anew. */
static int power(void)
{
    memset(&table, 0, sizeof table);
    return hand(TJERNFAUG_KIND_POWER, TJERNFAUG_BODY_POWER);
}

/* From what a cut left it goes on: with a power event, which need not change anything, or, where nothing was kept, with a new record; and the next cut. */
static int goes_on(uint32_t step)
{
    if (any)
        power();
    else if (!fresh())
        return 0;
    return survives(step, draw() % WAYS);
}

/* What is in memory and in flash, to come back to. */
struct moment {
    struct tjernfaug_record record;
    struct tjernfaug_deadlines table;
    uint32_t serial;
    int slot, any;
    uint8_t held[TJERNFAUG_IMAGE], flash[2][BLOCK];
};

static void note(struct moment *m)
{
    m->record = record, m->table = table, m->serial = serial, m->slot = slot, m->any = any;
    memcpy(m->held, held, sizeof held);
    memcpy(m->flash, flash, sizeof flash);
}

static void back(const struct moment *m)
{
    record = m->record, table = m->table, serial = m->serial, slot = m->slot, any = m->any;
    memcpy(held, m->held, sizeof held);
    memcpy(flash, m->flash, sizeof flash);
}

/* Without a cut, and without a boot behind it. */
static int kept(void)
{
    left = STEPS + 1;
    keep();
    any = 1;
    return tjernfaug_save(&record, &table, serial, held, sizeof held) == TJERNFAUG_ANSWER_TAKEN;
}

/* One record, kept with a cut at each step, every way in turn, and with none; then the router goes on with it. */
static int each(uint32_t turn)
{
    static struct moment m;
    note(&m);
    for (uint32_t step = 1; step <= STEPS + 1; step++) {
        back(&m);
        if (!survives(step, (step + turn) % WAYS) || !goes_on(1 + draw() % (STEPS + 1))) {
            printf("slots: WRONG: record %u, the power off behind %u of %u octets, or in the next keep: %s came back\n", turn + 1, step - 1, STEPS, any ? "another" : "none");
            return 0;
        }
    }
    back(&m);
    return kept();
}

/* An invalid record is not kept: what was kept last stays. */
static int spared(void)
{
    static struct moment m;
    note(&m);
    left = STEPS + 1;
    record.hot.a0.status = 9;
    keep();
    const int same = memcmp(flash, m.flash, sizeof flash) == 0 && serial == m.serial && slot == m.slot;
    return same && boot() && tjernfaug_save(&record, &table, serial, image, sizeof image) == TJERNFAUG_ANSWER_TAKEN && memcmp(image, held, sizeof held) == 0;
}

int main(void)
{
    static int (*const story[])(void) = {fresh, card, start, rejected, lifted, start, accepted, power};
    int right = 1, spares;
    /* Never written, and the count of images about to wrap. */
    memset(flash, 0xFF, sizeof flash);
    serial = UINT32_MAX - 3;
    for (uint32_t i = 0; right && i < sizeof story / sizeof *story; i++)
        right = story[i]() && each(i);
    spares = right && spared();
    if (right)
        printf("slots: %u cuts, each came back to the older or the newer record%s\n", cuts, spares ? "" : "; WRONG: an invalid one was kept");
    return !(spares && olds > 0 && news > 0);
}
