/*
 * The registration record for C firmware.
 * libfirmware.a has all calls: `tools/archive` makes it for x86-64 and other processors.
 *
 * What holds for every call: each pointer is valid, aligned for its type, and not null, also where its length is 0: the library takes it so, by its language's rules, and does not test it.
 * The storage behind a pointer that is not const overlaps no other argument. All of it is used during the call only, and nothing is kept.
 * Beyond that no argument is bad: any octets are a record or a table of deadlines, any number is a kind or a time, any octets are a body, and each has its answer.
 * Lengths and offsets are 64 bits wide on every processor, as the library has them: uint64_t, not size_t.
 *
 * The header is for C11 and for C++11 and later, and needs no other one but stdint.h. The calls are the library's. What stands behind them is inline: numbers in words, the
 * notice's timers in a row, networks by their digits, and what writes an event's body.
 */
#ifndef TJERNFAUG_H
#define TJERNFAUG_H

#include <stdint.h>

#ifdef __cplusplus
extern "C" {
#endif

/* This header's version: 10000 times the major number, 100 times the minor one, and the patch. */
#define TJERNFAUG_VERSION 1200
#define TJERNFAUG_VERSION_TEXT "0.12.0"

/* The library's: TJERNFAUG_VERSION of the header that belongs to it. */
uint32_t tjernfaug_version(void);

/* The numbers by name. Structs and calls have plain numbers, so that no compiler's enums change the layout. */
enum tjernfaug_kind {
    TJERNFAUG_KIND_CARD = 1,
    TJERNFAUG_KIND_START = 2,
    TJERNFAUG_KIND_MESSAGE = 3,
    TJERNFAUG_KIND_TIMER = 4,
    TJERNFAUG_KIND_POWER = 5,
    TJERNFAUG_KIND_KEY = 6,
    TJERNFAUG_KIND_UPDATE = 7,
    TJERNFAUG_KIND_MESSAGE_DRAWS = 8,
    TJERNFAUG_KIND_IMPORT = 10,
    TJERNFAUG_KIND_CARD_EDITION = 11,
};

/* The answers. A call that gives a number, or else says why not, adds REFUSED to its answer. No call here answers 3 or 19, which are for reading a request, nor 21 or 22, which are for explaining a log. */
enum tjernfaug_answer {
    TJERNFAUG_ANSWER_TAKEN = 0,
    TJERNFAUG_ANSWER_RANGE = 1,
    TJERNFAUG_ANSWER_IGNORED = 2,
    TJERNFAUG_ANSWER_LAYOUT = 3,
    TJERNFAUG_ANSWER_FULL = 4,
    TJERNFAUG_ANSWER_NO_CARD = 5,
    TJERNFAUG_ANSWER_STATE = 6,
    TJERNFAUG_ANSWER_SAME_NETWORK = 7,
    TJERNFAUG_ANSWER_NETWORK_LISTED = 8,
    TJERNFAUG_ANSWER_AREA_LISTED = 9,
    TJERNFAUG_ANSWER_UNPROTECTED = 10,
    TJERNFAUG_ANSWER_NOT_RUNNING = 11,
    TJERNFAUG_ANSWER_SHORT = 12,
    TJERNFAUG_ANSWER_CUT = 13,
    TJERNFAUG_ANSWER_FIRST_OCTET = 14,
    TJERNFAUG_ANSWER_SECOND_OCTET = 15,
    TJERNFAUG_ANSWER_MESSAGE_TYPE = 16,
    TJERNFAUG_ANSWER_PAST_END = 17,
    TJERNFAUG_ANSWER_UNKNOWN_ELEMENT = 18,
    TJERNFAUG_ANSWER_THIRD_LEVEL = 19,
    TJERNFAUG_ANSWER_WAITING = 20,
    TJERNFAUG_ANSWER_VERSION = 23,
    TJERNFAUG_ANSWER_DAMAGED = 24,
    TJERNFAUG_REFUSED = 256,
};

enum tjernfaug_state {
    TJERNFAUG_STATE_NO_SUPI = 0,
    TJERNFAUG_STATE_NORMAL_SERVICE = 1,
    TJERNFAUG_STATE_LIMITED_SERVICE = 2,
    TJERNFAUG_STATE_ATTEMPTING_REGISTRATION = 3,
    TJERNFAUG_STATE_REGISTERED_INITIATED = 4,
    TJERNFAUG_STATE_REGISTERED = 5,
    TJERNFAUG_STATE_PLMN_SEARCH = 6,
};

enum tjernfaug_status {
    TJERNFAUG_STATUS_5U1 = 1,
    TJERNFAUG_STATUS_5U2 = 2,
    TJERNFAUG_STATUS_5U3 = 3,
};

/* What a notice tells of a timer. */
enum tjernfaug_told {
    TJERNFAUG_TOLD_LEFT = 0,
    TJERNFAUG_TOLD_STOPPED = 1,
    TJERNFAUG_TOLD_STARTED = 2,
};

/* A timer's number in the timer event. */
enum tjernfaug_number {
    TJERNFAUG_TIMER_T3510 = 1,
    TJERNFAUG_TIMER_T3511 = 2,
    TJERNFAUG_TIMER_T3502 = 3,
    TJERNFAUG_TIMER_T3247 = 4,
    TJERNFAUG_TIMER_T3512 = 5,
    TJERNFAUG_TIMER_T3346 = 6,
};

/*
 * The ten timers in a row, in the order in which those run out that are equally far past their deadlines: a place in struct tjernfaug_deadlines, and what a round hands out.
 * NONE_DUE is the answer of an ask that names no timer.
 */
enum tjernfaug_slot {
    TJERNFAUG_T3510_0,
    TJERNFAUG_T3510_1,
    TJERNFAUG_T3511_0,
    TJERNFAUG_T3511_1,
    TJERNFAUG_T3502_0,
    TJERNFAUG_T3502_1,
    TJERNFAUG_T3346_0,
    TJERNFAUG_T3346_1,
    TJERNFAUG_T3512,
    TJERNFAUG_T3247,
    TJERNFAUG_SLOTS,
    TJERNFAUG_NONE_DUE = TJERNFAUG_SLOTS,
};

/* A registration's type. */
enum tjernfaug_type {
    TJERNFAUG_TYPE_INITIAL = 1,
    TJERNFAUG_TYPE_MOBILITY = 2,
    TJERNFAUG_TYPE_PERIODIC = 3,
};

/*
 * Which text the device is certified against: by it the identity of a request is chosen. 001 is what kind 1 stands for. By 002 a device that comes from 4G may open with the GUTI
 * mapped from its 4G-GUTI, by 003 only if that is a native one: see tjernfaug_request_from_s1.
 */
enum tjernfaug_edition {
    TJERNFAUG_EDITION_SOURCE_001 = 1,
    TJERNFAUG_EDITION_SOURCE_002 = 2,
    TJERNFAUG_EDITION_SOURCE_003 = 3,
};

/*
 * The cause of a registration reject, msg[0] to msg[len - 1]: 0 to 255.
 * For any other message it is 256 plus the refusal's number; of several faults the one at the lowest offset, at a tie the lower number:
 *   269  fewer than the fixed octets
 *   270  octet 1 not 7E
 *   271  octet 2 not 00
 *   272  type not one this call reads, which is 44 alone: an accept too, whatever lies behind its type
 *   273  an element past the end
 *   274  an unknown element that must be understood (00 to 0F)
 */
uint32_t reject_cause(const uint8_t *msg, uint64_t len);

/* The seconds of a timer octet (GPRS timer 2), 0 to 11160; 65535 for top bits 7, deactivated. */
uint32_t timer_seconds(uint8_t octet);

/*
 * The device's numbers, here and below the widest first. A flag is 0 or 1; lengths and counts say how much of an array is in use.
 * t3512length: T3512's kept length in seconds, 0 where the network wants no periodic updates. due: whether a periodic update is due.
 * edition: that of the last card change, 1 before the first; it survives a power cycle.
 */
struct tjernfaug_device {
    uint32_t home;
    uint32_t t3512length;
    uint8_t card;
    uint8_t suci;
    uint8_t cardlimit;
    uint8_t banlimit;
    uint8_t n1limit;
    uint8_t t3247;
    uint8_t t3512;
    uint8_t due;
    uint8_t capability;
    uint8_t security;
    uint8_t roaming;
    uint8_t regional;
    uint8_t edition;
};

/*
 * One access's numbers. A network and an area code are three octets, the first one highest.
 * state: 0 no card or card refused, 1 normal service, 2 limited service, 3 attempting registration, 4 registration initiated, 5 registered, 6 network search.
 * status: 1 to 3 for 5U1 to 5U3. t3502length: T3502's stored length in seconds. cardcounter: the card counter. net and code: the pending area.
 * guti, visited: whether a GUTI and a last area (lastnet, lastcode) are held. ksi: ngKSI, 7 for none.
 * regtype: the pending registration's type, 1 initial, 2 mobility, 3 periodic. uplink, sessions: its uplink data status and PDU session status,
 * the first octet as sent in the low half: session i is bit i. t3346: whether T3346 runs: the network has asked for time.
 */
struct tjernfaug_access {
    uint32_t net;
    uint32_t code;
    uint32_t lastnet;
    uint32_t lastcode;
    uint16_t t3502length;
    uint16_t uplink;
    uint16_t sessions;
    uint8_t state;
    uint8_t status;
    uint8_t attempts;
    uint8_t cardcounter;
    uint8_t t3510;
    uint8_t t3511;
    uint8_t t3502;
    uint8_t guti;
    uint8_t visited;
    uint8_t ksi;
    uint8_t equivalents;
    uint8_t entries;
    uint8_t regtype;
    uint8_t t3346;
};

struct tjernfaug_hot {
    struct tjernfaug_device dev;
    struct tjernfaug_access a0;
    struct tjernfaug_access a1;
};

/*
 * The network entries of an access, column by column.
 * ranks: how many of the access's entries were last marked earlier, by a reject or an import: of n entries in use each has another one of 0 to n - 1, and 0 was marked longest ago.
 * Where all sixteen are in use and a reject needs one more, the entry of lowest rank that is neither forbidden nor barred gives up its place.
 */
struct tjernfaug_entries {
    uint32_t nets[16];
    uint8_t bans[16];
    uint8_t n1s[16];
    uint8_t forbidden[16];
    uint8_t barred[16];
    uint8_t ranks[16];
};

/*
 * The record, which firmware keeps and lends. Its fields are there to be read; one that is written may make the record invalid, which is answer 1.
 * The octets between the fields have no meaning and may change at any call.
 * A listed area is (network * 2^24 + code) * 2, plus 1 if it is marked protected; the oldest first.
 */
struct tjernfaug_record {
    struct tjernfaug_hot hot;
    struct tjernfaug_entries e0;
    struct tjernfaug_entries e1;
    uint64_t roaming[40];
    uint64_t regional[40];
    uint8_t guti0[10];
    uint8_t guti1[10];
    uint32_t equivalents0[15];
    uint32_t equivalents1[15];
    uint8_t suci[64];
    uint8_t capability[13];
    uint8_t security[8];
};

/* told: 0 left as it was, 1 stopped, 2 started (anew, where it ran) for so many seconds. */
struct tjernfaug_timer {
    uint32_t told;
    uint32_t seconds;
};

struct tjernfaug_timers {
    struct tjernfaug_timer t3510;
    struct tjernfaug_timer t3511;
    struct tjernfaug_timer t3502;
    struct tjernfaug_timer t3346;
};

/*
 * What firmware is to do after an event: the timers of access 0 and 1, T3247, T3512, and the requests, each 0 for none, else 1 plus the access that it is meant for.
 * offset: which octet of a message was bad, counted from 0 in the message and not in the event's body; 0 where the answer is none of 13 to 18.
 * changed: 1 if the record is another than before the event, and so to be saved, else 0. A timer that ran out in a round always changed it.
 */
struct tjernfaug_notice {
    uint64_t offset;
    struct tjernfaug_timers c0;
    struct tjernfaug_timers c1;
    struct tjernfaug_timer t3247;
    struct tjernfaug_timer t3512;
    uint32_t restart;
    uint32_t leave;
    uint32_t update;
    uint32_t changed;
};

/*
 * The ten timers' deadlines, which firmware keeps beside the record and lends with it; place i is that of slot i. The clock is one 32-bit number of milliseconds that wraps.
 * held: 1 while the timer has a deadline, else 0. ends: what the clock shows when its lap ends. rests: the milliseconds left behind that lap, 0 in the last one.
 * A length above 2,147,483,647 ms runs in laps of at most so much, and the next begins at the old one's end, not when that was noticed. A stopped timer has 0 in all three, so that
 * zeros are the table of a new record. The octets behind held have no meaning and may change at any call.
 */
struct tjernfaug_deadlines {
    uint64_t rests[TJERNFAUG_SLOTS];
    uint32_t ends[TJERNFAUG_SLOTS];
    uint8_t held[TJERNFAUG_SLOTS];
};

/* A timer that ran out in a round: its slot, and what the record told at that, in the form of an event's notice. The table has followed it already; the requests are yours. */
struct tjernfaug_ran {
    uint32_t slot;
    struct tjernfaug_notice notice;
};

/*
 * What a device brings from 4G, lent for a request. All but guti are 0 for no, any other number for yes.
 * registered: it was registered in S1 mode. n26: it was told that interworking without N26 is not supported. context: it holds an EPS security context.
 * valid: it holds a valid 4G-GUTI. native: that is a native one. guti: the 4G-GUTI: network (3, as sent), MME group (2, the high one first), MME code (1), M-TMSI (4).
 */
struct tjernfaug_s1 {
    uint8_t registered;
    uint8_t n26;
    uint8_t context;
    uint8_t valid;
    uint8_t native;
    uint8_t guti[10];
};

/* The library's layout: a compiler that has another one stops here. tests/c/run holds the library to it on x86-64. */
#ifdef __cplusplus
#define TJERNFAUG_LAYOUT(name, size, align) static_assert(sizeof(struct name) == (size) && alignof(struct name) == (align), "the layout of " #name)
#else
#define TJERNFAUG_LAYOUT(name, size, align) _Static_assert(sizeof(struct name) == (size) && _Alignof(struct name) == (align), "the layout of " #name)
#endif
TJERNFAUG_LAYOUT(tjernfaug_device, 24, 4);
TJERNFAUG_LAYOUT(tjernfaug_access, 36, 4);
TJERNFAUG_LAYOUT(tjernfaug_hot, 96, 4);
TJERNFAUG_LAYOUT(tjernfaug_entries, 144, 4);
TJERNFAUG_LAYOUT(tjernfaug_record, 1256, 8);
TJERNFAUG_LAYOUT(tjernfaug_timer, 8, 4);
TJERNFAUG_LAYOUT(tjernfaug_timers, 32, 4);
TJERNFAUG_LAYOUT(tjernfaug_notice, 104, 8);
TJERNFAUG_LAYOUT(tjernfaug_deadlines, 136, 8);
TJERNFAUG_LAYOUT(tjernfaug_ran, 112, 8);
TJERNFAUG_LAYOUT(tjernfaug_s1, 15, 1);
#undef TJERNFAUG_LAYOUT

/*
 * A new record with these limits (1 to 10), 5GMM capability (1 to 13 octets) and UE security capability (2 to 8 octets), over any octets that r held.
 * 0, or 1 where one of them is outside its range: r is then as it was.
 */
uint32_t tjernfaug_new(struct tjernfaug_record *r, uint8_t cardlimit, uint8_t banlimit, uint8_t n1limit,
                       const uint8_t *capability, uint64_t capability_len, const uint8_t *security, uint64_t security_len);

/*
 * An event in the event log's form: a log record is the length of what follows it (two octets, the low one first), the kind (the same) and the body.
 *   1 card     home (3), SUCI (9 to 64); the edition is then 1
 *   2 start    access, manual, network (3), area code (3)
 *   3 message  access, protected, draw for T3247 (2, the low one first), the message's octets; the draw for T3346 is then 900
 *   4 timer    1 T3510, 2 T3511, 3 T3502, 4 T3247, 5 T3512, 6 T3346; access (0 for T3247 and T3512)
 *   5 power
 *   6 key      access, set
 *   7 update   access, type (2 mobility, 3 periodic), network (3), area code (3), uplink data status (2), PDU session status (2), as sent, session 0 clear
 *   8 message  access, protected, draw for T3247 (2, the low one first), draw for T3346 (the same), the message's octets
 *  10 import   the card's file of forbidden networks, three octets each, FF FF FF unused: the whole body
 *  11 card     edition (1 to 3), home (3), SUCI (9 to 64)
 * Draw both evenly, for each message anew: 1800 to 3600 s for T3247, 900 to 1800 s for T3346. One outside its range is answer 1, used or not.
 * The answer's number, 0 for taken. Every answer but 0 leaves r as it was; notice is always written.
 * 20 is a start or an update over an access whose T3346 runs: when it has run out, the notice asks for a restart.
 * An import, allowed in each state, marks the file's networks forbidden on access 0. A new one has counter 0, so that T3247 and a power cycle do not lift its mark; one that has an
 * entry keeps its counters. It is 1 if len is not a multiple of three or a code is no network code, and 4 if the new networks, each counted once, exceed the free entries.
 * A reject that marks a network without an entry, where none is free, takes the place of the one without a mark that was marked longest ago: its counters are forgotten, and the
 * newcomer has the same index. It is 4 if all sixteen have a mark. An import gives none up.
 * A message at fault is answered by its fault, and the notice's offset tells the octet; of several faults the one at the lowest offset, at a tie the lower number:
 *   13  fewer than the fixed octets: the message's length, or 3, the length octet of an accept whose result has length 0
 *   14  octet 1 not 7E: 0
 *   15  octet 2 not 00: 1
 *   16  type not one this call reads, which are 42 and 44: 2
 *   17  an element past the end: its identifier
 *   18  an unknown element that must be understood (00 to 0F): its identifier
 */
uint32_t tjernfaug_event(struct tjernfaug_record *r, uint32_t kind, const uint8_t *body, uint64_t len,
                         struct tjernfaug_notice *notice);

/*
 * The deadlines after an event, for the time now on the clock: a timer that the notice tells to be started ends so many seconds from now, also if it ran, one that is stopped has no
 * deadline, and one that is left keeps what it has. Call it behind every tjernfaug_event, with its notice; a round does it itself.
 * 0; or 1 where one of the ten `told` is above 2: t is then as it was.
 */
uint32_t tjernfaug_arm(struct tjernfaug_deadlines *t, uint32_t now, const struct tjernfaug_notice *notice);

/*
 * The slot of the timer that is due at the time now, or TJERNFAUG_NONE_DUE: of those in their last lap whose deadline is past, the one furthest past it, of equals the first slot.
 * Past is what lies 0 to 2,147,483,647 ms behind now by the wrapping clock; all else is still to come. In t a lap that is over gives way to the next; nothing else changes, and a
 * timer that is due is named again until it is stopped or started. tjernfaug_round asks by itself: this call is for firmware that runs its timers out one by one.
 */
uint32_t tjernfaug_ask(struct tjernfaug_deadlines *t, uint32_t now);

/* What a round's list takes: so many numbers of 32 bits for each timer, and so many timers. */
enum { TJERNFAUG_RAN_WORDS = 28, TJERNFAUG_MOST_RAN = 10 };

/*
 * An asking round at the time now: as long as a timer is due, it runs out. That is the timer event of its slot on r, whose notice arms t at the same now; both are handed out, from
 * ran[0] on in the order in which they ran out. So read the clock once for a round.
 * Call it at least every 600 s, and first at most 600 s after the first start of a timer: if the time only goes on, each timer that is not stopped before then runs out once, at its
 * deadline or later, in the first round from then on. A log has each one as kind 4, with tjernfaug_slot_number and tjernfaug_slot_access.
 * words counts numbers of 32 bits: TJERNFAUG_RAN_WORDS for each place of ran, of which TJERNFAUG_MOST_RAN are wanted, however few timers are due.
 * How many ran out, 0 to TJERNFAUG_MOST_RAN, and the places behind them are as they were; or 256 plus the refusal's number, and then r, t and ran all are:
 *   257  r is invalid, or t does not fit it: each held is to be 1 where the record has that timer running, and 0 where not
 *   268  words is below TJERNFAUG_RAN_WORDS * TJERNFAUG_MOST_RAN, 280
 */
uint32_t tjernfaug_round(struct tjernfaug_record *r, struct tjernfaug_deadlines *t, uint32_t now, struct tjernfaug_ran *ran, uint64_t words);

/* The longest that tjernfaug_wait says, in milliseconds. */
enum { TJERNFAUG_LONGEST_WAIT = 600000 };

/*
 * For how many milliseconds from the time now on firmware may sleep until its next asking round: to the first end of a lap among the timers held, 0 where one is past, and
 * TJERNFAUG_LONGEST_WAIT at most; so much too where none is held. Past is as in tjernfaug_ask, and t stays as it was. There is no refusal.
 * A sleep that is no longer, behind a round, is over no deadline. A lap's end counts also where more laps follow: nothing runs out in the round there. An event that is handed in
 * meanwhile may start a shorter timer: behind its arm call this again. The 600 s of tjernfaug_round count from its start, so leave some of them for what the loop itself takes.
 */
uint32_t tjernfaug_wait(const struct tjernfaug_deadlines *t, uint32_t now);

/* The longest request, for the size of a buffer: a clear part of 80 octets, with ngKSI 7 the whole of it, then 71 with its length, and 110 in the container. */
enum { TJERNFAUG_LONGEST_REQUEST = 193 };

/*
 * The registration request of an access in state 4, written from buffer[0] on. r and what lies behind the request stay as they were.
 *   clear part  7E 00 41, ngKSI and type in one octet, the identity behind its length (2, the high one first), 2E; with ngKSI 7, no key set, this is all
 *   container   with a key set, ngKSI 0 to 6: 71, a length (the same) and in it the whole request, hidden elements too: the same octets to the identity's end,
 *               10, 2E, 52 if a last area is held, and in an update 40 if it is not zero, and 50
 * 71 comes last, so that the security layer can cipher the message's tail, which is what the container holds. This library ciphers nothing.
 * How many octets it has, at most TJERNFAUG_LONGEST_REQUEST; or 256 plus the refusal's number, and then the whole buffer is as it was:
 *   257  access is not 0 or 1, or r is invalid
 *   262  the access is not in state 4
 *   268  the buffer is shorter than the request
 */
uint32_t tjernfaug_request(const struct tjernfaug_record *r, uint8_t access, uint8_t *buffer, uint64_t len);

/* The longest attach message, and the longest request with one: a clear part of 65,047 octets, 71 with its length, and 65,069 in the container. */
enum { TJERNFAUG_LONGEST_ATTACH = 65000, TJERNFAUG_LONGEST_REQUEST_FROM_S1 = 130119 };

/*
 * The registration request as tjernfaug_request writes it, of a device that may come from 4G: it lends what it brings from there, and the attach message, whose length may be 0.
 * Both count in the mapped case alone. That is an initial registration, over either access: with edition 2 if registered, n26, context and valid are all yes, with edition 3 if
 * native is yes too. The identity is then the 5G-GUTI mapped from the 4G-GUTI by TS 23.003, F2 and ten octets, and the request has more at its end. These stand behind 2E in the
 * clear part, before 71, and behind all else in the container:
 *   77  the 5G-GUTI that would else be the identity, behind its length (2, the high one first); left out if none is held
 *   2B  01 00: not in EMM-REGISTERED
 *   70  the attach message, behind its length (the same); left out if it is empty
 * In all other cases the octets are those of tjernfaug_request, whatever is lent.
 * A length may be above 255, so that it does not come back with the answer: *written is how many octets the request has, at most TJERNFAUG_LONGEST_REQUEST_FROM_S1, and 0 with a refusal.
 * The answer's number, 0 for taken. For every other one, here without 256, the whole buffer is as it was:
 *    1  access is not 0 or 1, r is invalid, or attach_len is above TJERNFAUG_LONGEST_ATTACH, in every edition, used or not
 *    6  the access is not in state 4
 *   12  the buffer is shorter than the request
 */
uint32_t tjernfaug_request_from_s1(const struct tjernfaug_record *r, uint8_t access, const struct tjernfaug_s1 *s1, const uint8_t *attach, uint64_t attach_len,
                                   uint8_t *buffer, uint64_t len, uint64_t *written);

/* How many networks are heard at most, for the size of both lists. */
enum { TJERNFAUG_MOST_CELLS = 64 };

/*
 * Of the networks heard, those that the access may try, in the order heard and each once, written from permitted[0] on. r and what lies behind them stay as they were.
 * A network is its three octets, the first one highest, as in the record; one with bad digits is passed on as any other. The lengths count numbers, not octets.
 * One is left out exactly if it is marked forbidden or N1 not allowed on this access, or was heard before in this list. Areas play no part.
 * How many it permits, 0 to TJERNFAUG_MOST_CELLS; or 256 plus the refusal's number, and then the whole list is as it was:
 *   257  access is not 0 or 1, more than TJERNFAUG_MOST_CELLS are heard, a number is above FFFFFF hex, or r is invalid
 *   268  permitted_len is below heard_len, even if all that it permits would fit
 */
uint32_t tjernfaug_cells(const struct tjernfaug_record *r, uint8_t access, const uint32_t *heard, uint64_t heard_len,
                         uint32_t *permitted, uint64_t permitted_len);

/* The longest list: sixteen networks of three octets. */
enum { TJERNFAUG_LONGEST_LIST = 48 };

/*
 * The networks marked forbidden on access 0, for the card's file: from file[0] on, in the order of the entries, three octets each, then FF to the file's end. r stays as it was.
 * Those that T3247 would lift are written as well. Imported into a record just given that card, the file gives the same forbidden marks.
 * How many networks it wrote, 0 to 16; or 256 plus the refusal's number, and then the whole file is as it was:
 *   257  len is not a multiple of three, or r is invalid
 *   268  the file is shorter than the list: three octets for each marked network
 */
uint32_t tjernfaug_forbidden(const struct tjernfaug_record *r, uint8_t *file, uint64_t len);

/* The length of an image, on every processor: for the size of a buffer and of a slot in flash. */
enum { TJERNFAUG_IMAGE = 1392 };

/*
 * The image of a record, its deadlines and a serial, from buffer[0] on: what is kept over a power cut. The layout is fixed octet by octet, whatever the processor's order and padding
 * (docs/FIRMWARE.md has it): a mark, the layout's version, the length, the serial, the record, the table, and over all of it CRC-32. Numbers have their lowest octet first.
 * The serial is any number of yours; of two images it tells the later one, see tjernfaug_later. Where you keep no table, lend one of zeros.
 * The answer's number; r, t and what lies behind the image stay as they were, and for every answer but 0 the whole buffer does:
 *    1  r is invalid: what was saved could not be loaded
 *   12  the buffer is shorter than TJERNFAUG_IMAGE
 */
uint32_t tjernfaug_save(const struct tjernfaug_record *r, const struct tjernfaug_deadlines *t, uint32_t serial, uint8_t *buffer, uint64_t len);

/*
 * The record, the deadlines and the serial of the image at octets[0], over what r, t and *serial held. Any octets may be lent, also an empty slot; those behind the image play no part.
 * What tjernfaug_save wrote of a valid record loads back equal. An image in which one octet is another is damaged.
 * The answer's number, and for every answer but 0 all that is lent is as it was:
 *   24  damaged: no image, or one that is cut or changed: its mark, its length or its checksum does not hold
 *   23  a whole image of another version of the layout
 *    1  a whole image of this version, but its record is invalid
 */
uint32_t tjernfaug_load(struct tjernfaug_record *r, struct tjernfaug_deadlines *t, uint32_t *serial, const uint8_t *octets, uint64_t len);

/* Whether serial a comes behind b, on a count that wraps. */
static inline int tjernfaug_later(uint32_t a, uint32_t b)
{
    return a != b && (uint32_t)(a - b) < 0x80000000u;
}

/* Numbers in plain words, "unknown" for all others. Of a call that adds REFUSED, take it off first. */
static inline const char *tjernfaug_kind_name(uint32_t kind)
{
    static const char *const names[] = {
        "unknown", "card", "start", "message", "timer", "power", "key", "update", "message with both draws", "unknown", "import",
        "card with an edition",
    };
    return kind < sizeof names / sizeof *names ? names[kind] : "unknown";
}

static inline const char *tjernfaug_answer_name(uint32_t answer)
{
    static const char *const names[] = {
        "taken",
        "a number out of its range",
        "ignored by the two-access rule",
        "no request by the layout",
        "no entry for the network",
        "a start without a card, or with a refused one",
        "wrong state for the event",
        "the other access is registering with the same network",
        "network listed",
        "area listed",
        "an accept without protection",
        "timer not running",
        "buffer too short",
        "fewer than the fixed octets",
        "octet 1 not 7E",
        "octet 2 not 00",
        "type not one this call reads",
        "an element past the end",
        "an unknown element that must be understood",
        "a request on a third level",
        "the network has asked for time",
        "unknown",
        "unknown",
        "an image of another version",
        "a damaged image",
    };
    return answer < sizeof names / sizeof *names ? names[answer] : "unknown";
}

static inline const char *tjernfaug_state_name(uint32_t state)
{
    static const char *const names[] = {
        "no card or card refused", "normal service", "limited service", "attempting registration", "registration initiated", "registered", "network search",
    };
    return state < sizeof names / sizeof *names ? names[state] : "unknown";
}

/* By its number in the timer event. */
static inline const char *tjernfaug_timer_name(uint32_t number)
{
    static const char *const names[] = {"unknown", "T3510", "T3511", "T3502", "T3247", "T3512", "T3346"};
    return number < sizeof names / sizeof *names ? names[number] : "unknown";
}

/* What the notice tells of a slot's timer; of a slot that is none, that it is left. */
static inline struct tjernfaug_timer tjernfaug_timer_of(const struct tjernfaug_notice *notice, uint32_t slot)
{
    const struct tjernfaug_timer left = {TJERNFAUG_TOLD_LEFT, 0};
    switch (slot) {
    case TJERNFAUG_T3510_0: return notice->c0.t3510;
    case TJERNFAUG_T3510_1: return notice->c1.t3510;
    case TJERNFAUG_T3511_0: return notice->c0.t3511;
    case TJERNFAUG_T3511_1: return notice->c1.t3511;
    case TJERNFAUG_T3502_0: return notice->c0.t3502;
    case TJERNFAUG_T3502_1: return notice->c1.t3502;
    case TJERNFAUG_T3346_0: return notice->c0.t3346;
    case TJERNFAUG_T3346_1: return notice->c1.t3346;
    case TJERNFAUG_T3512: return notice->t3512;
    case TJERNFAUG_T3247: return notice->t3247;
    default: return left;
    }
}

/* A slot's number and access in the timer event; of a slot that is none, number 0, which is answer 1. */
static inline uint8_t tjernfaug_slot_number(uint32_t slot)
{
    static const uint8_t numbers[TJERNFAUG_SLOTS] = {
        TJERNFAUG_TIMER_T3510, TJERNFAUG_TIMER_T3510, TJERNFAUG_TIMER_T3511, TJERNFAUG_TIMER_T3511, TJERNFAUG_TIMER_T3502, TJERNFAUG_TIMER_T3502,
        TJERNFAUG_TIMER_T3346, TJERNFAUG_TIMER_T3346, TJERNFAUG_TIMER_T3512, TJERNFAUG_TIMER_T3247,
    };
    return slot < TJERNFAUG_SLOTS ? numbers[slot] : 0;
}

static inline uint8_t tjernfaug_slot_access(uint32_t slot)
{
    return slot < TJERNFAUG_T3512 && slot % 2 == 1;
}

static inline const char *tjernfaug_slot_name(uint32_t slot)
{
    static const char *const names[TJERNFAUG_SLOTS] = {
        "T3510 of access 0", "T3510 of access 1", "T3511 of access 0", "T3511 of access 1", "T3502 of access 0", "T3502 of access 1",
        "T3346 of access 0", "T3346 of access 1", "T3512", "T3247",
    };
    return slot < TJERNFAUG_SLOTS ? names[slot] : "unknown";
}

/* What is no network. As a body's three octets it is answer 1. */
#define TJERNFAUG_NO_NETWORK UINT32_C(0xFFFFFFFF)

/*
 * A network's number from its digits, as the record has it: 002-02 is tjernfaug_network(2, 2, 2), which is 00F220 hex, and 310-260 is tjernfaug_network(310, 260, 3).
 * mnc_digits says how many digits the MNC has, 2 or 3: 310-26 and 310-026 are two networks. TJERNFAUG_NO_NETWORK where there are no such digits.
 * Write 2 and not 002: to C a number that begins with 0 is octal.
 */
static inline uint32_t tjernfaug_network(uint32_t mcc, uint32_t mnc, uint32_t mnc_digits)
{
    const uint32_t three = mnc_digits == 3, pair = three ? mnc / 10 : mnc, third = three ? mnc % 10 : 0xF;
    if (mcc > 999 || pair > 99 || (mnc_digits != 2 && mnc_digits != 3))
        return TJERNFAUG_NO_NETWORK;
    return (mcc / 10 % 10) << 20 | (mcc / 100) << 16 | third << 12 | (mcc % 10) << 8 | (pair % 10) << 4 | pair / 10;
}

/* The octets of a network's text, its end too. */
enum { TJERNFAUG_NETWORK_TEXT = 8 };

/* "002-02" or "310-260" from a network's number; of one that is no network its six hex digits, or "none" above FFFFFF hex. The text stands in out, which is given back. */
static inline const char *tjernfaug_network_text(uint32_t network, char out[TJERNFAUG_NETWORK_TEXT])
{
    /* Where the digits stand: those of the MCC and of the MNC in their order, and all six as sent. */
    static const uint8_t ordered[] = {16, 20, 8, 0, 4, 12}, sent[] = {20, 16, 12, 8, 4, 0};
    uint32_t count = (network >> 12 & 0xF) == 0xF ? 5 : 6, decimal = 0, at = 0, i;
    const uint8_t *places = ordered;
    if (network > 0xFFFFFF) {
        for (i = 0; i < sizeof "none"; i++)
            out[i] = "none"[i];
        return out;
    }
    while (decimal < count && (network >> ordered[decimal] & 0xF) < 10)
        decimal++;
    if (decimal < count) {
        count = 6;
        places = sent;
    }
    for (i = 0; i < count; i++) {
        if (i == 3 && places == ordered)
            out[at++] = '-';
        out[at++] = "0123456789ABCDEF"[network >> places[i] & 0xF];
    }
    out[at] = 0;
    return out;
}

/*
 * What writes the bodies of events: plain arguments, then the buffer and how many octets it has. A network and an area code are numbers as in the record, of which the low 24 bits
 * count; uplink and sessions too are as in the record, session i bit i. Nothing is judged here: that is the event's.
 * How many octets the body has; or 0 where the buffer is shorter, and then it is as it was. As an event's body no octets are answer 1, so that this too is told there.
 * A power cycle has no body, and an import's is the card's file.
 */
enum {
    TJERNFAUG_BODY_CARD = 3,          /* and the SUCI */
    TJERNFAUG_BODY_START = 8,
    TJERNFAUG_BODY_MESSAGE = 4,       /* and the message */
    TJERNFAUG_BODY_TIMER = 2,
    TJERNFAUG_BODY_POWER = 0,
    TJERNFAUG_BODY_KEY = 2,
    TJERNFAUG_BODY_UPDATE = 12,
    TJERNFAUG_BODY_MESSAGE_DRAWS = 6, /* and the message */
    TJERNFAUG_BODY_CARD_EDITION = 4,  /* and the SUCI */
    TJERNFAUG_LONGEST_CARD = 67,      /* with a SUCI of 64 octets */
    TJERNFAUG_LONGEST_CARD_EDITION = 68, /* the same */
};

/* For the bodies: three octets, the first one highest; two, the low one first; and octets as they are, which are not copied where they stand already. */
static inline void tjernfaug_put_three(uint8_t *to, uint32_t number)
{
    to[0] = number >> 16 & 0xFF;
    to[1] = number >> 8 & 0xFF;
    to[2] = number & 0xFF;
}

static inline void tjernfaug_put_two(uint8_t *to, uint32_t number)
{
    to[0] = number & 0xFF;
    to[1] = number >> 8 & 0xFF;
}

static inline void tjernfaug_put_octets(uint8_t *to, const uint8_t *from, uint64_t len)
{
    for (uint64_t i = 0; i < len && to != from; i++)
        to[i] = from[i];
}

static inline uint64_t tjernfaug_body_card(uint32_t home, const uint8_t *suci, uint64_t suci_len, uint8_t *body, uint64_t len)
{
    if (len < TJERNFAUG_BODY_CARD || len - TJERNFAUG_BODY_CARD < suci_len)
        return 0;
    tjernfaug_put_three(body, home);
    tjernfaug_put_octets(body + TJERNFAUG_BODY_CARD, suci, suci_len);
    return TJERNFAUG_BODY_CARD + suci_len;
}

/* Kind 11: the edition, and behind it kind 1's body. */
static inline uint64_t tjernfaug_body_card_edition(uint8_t edition, uint32_t home, const uint8_t *suci, uint64_t suci_len, uint8_t *body, uint64_t len)
{
    if (len < TJERNFAUG_BODY_CARD_EDITION || len - TJERNFAUG_BODY_CARD_EDITION < suci_len)
        return 0;
    body[0] = edition;
    return 1 + tjernfaug_body_card(home, suci, suci_len, body + 1, len - 1);
}

static inline uint64_t tjernfaug_body_start(uint8_t access, uint8_t manual, uint32_t network, uint32_t code, uint8_t *body, uint64_t len)
{
    if (len < TJERNFAUG_BODY_START)
        return 0;
    body[0] = access;
    body[1] = manual;
    tjernfaug_put_three(body + 2, network);
    tjernfaug_put_three(body + 5, code);
    return TJERNFAUG_BODY_START;
}

/*
 * Kind 3, with the draw for T3247 alone; the draw for T3346 is then 900. Kind 8, below, has both.
 * A message that was received in its place, at body + TJERNFAUG_BODY_MESSAGE or body + TJERNFAUG_BODY_MESSAGE_DRAWS, is not copied: msg is that place, and no second buffer is needed.
 */
static inline uint64_t tjernfaug_body_message(uint8_t access, uint8_t protection, uint16_t t3247, const uint8_t *msg, uint64_t msg_len,
                                              uint8_t *body, uint64_t len)
{
    if (len < TJERNFAUG_BODY_MESSAGE || len - TJERNFAUG_BODY_MESSAGE < msg_len)
        return 0;
    body[0] = access;
    body[1] = protection;
    tjernfaug_put_two(body + 2, t3247);
    tjernfaug_put_octets(body + TJERNFAUG_BODY_MESSAGE, msg, msg_len);
    return TJERNFAUG_BODY_MESSAGE + msg_len;
}

static inline uint64_t tjernfaug_body_message_draws(uint8_t access, uint8_t protection, uint16_t t3247, uint16_t t3346, const uint8_t *msg, uint64_t msg_len,
                                                    uint8_t *body, uint64_t len)
{
    if (len < TJERNFAUG_BODY_MESSAGE_DRAWS || len - TJERNFAUG_BODY_MESSAGE_DRAWS < msg_len)
        return 0;
    body[0] = access;
    body[1] = protection;
    tjernfaug_put_two(body + 2, t3247);
    tjernfaug_put_two(body + 4, t3346);
    tjernfaug_put_octets(body + TJERNFAUG_BODY_MESSAGE_DRAWS, msg, msg_len);
    return TJERNFAUG_BODY_MESSAGE_DRAWS + msg_len;
}

/* Of a slot, tjernfaug_slot_number and tjernfaug_slot_access give both. */
static inline uint64_t tjernfaug_body_timer(uint8_t number, uint8_t access, uint8_t *body, uint64_t len)
{
    if (len < TJERNFAUG_BODY_TIMER)
        return 0;
    body[0] = number;
    body[1] = access;
    return TJERNFAUG_BODY_TIMER;
}

static inline uint64_t tjernfaug_body_key(uint8_t access, uint8_t set, uint8_t *body, uint64_t len)
{
    if (len < TJERNFAUG_BODY_KEY)
        return 0;
    body[0] = access;
    body[1] = set;
    return TJERNFAUG_BODY_KEY;
}

static inline uint64_t tjernfaug_body_update(uint8_t access, uint8_t type, uint32_t network, uint32_t code, uint16_t uplink, uint16_t sessions,
                                             uint8_t *body, uint64_t len)
{
    if (len < TJERNFAUG_BODY_UPDATE)
        return 0;
    body[0] = access;
    body[1] = type;
    tjernfaug_put_three(body + 2, network);
    tjernfaug_put_three(body + 5, code);
    tjernfaug_put_two(body + 8, uplink);
    tjernfaug_put_two(body + 10, sessions);
    return TJERNFAUG_BODY_UPDATE;
}

#ifdef __cplusplus
}
#endif

#endif
