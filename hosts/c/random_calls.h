/* Random contents of a unit and random calls at its doors, for contents.c and stack.c. */
#ifndef DOOR_LINK_RANDOM_CALLS_H
#define DOOR_LINK_RANDOM_CALLS_H

#include "layout.h"

#include <string.h>

static uint64_t random_state = 0x9e3779b97f4a7c15u;

static uint64_t word(void) {
    random_state ^= random_state << 13;
    random_state ^= random_state >> 7;
    random_state ^= random_state << 17;
    return random_state * 0x2545f4914f6cdd1du >> 8;
}

static size_t below(size_t n) { return (size_t)(word() % n); }

static bool one_in(size_t n) { return below(n) == 0; }

static void fill(uint8_t *bytes, size_t length) {
    for (size_t i = 0; i < length; i++) bytes[i] = (uint8_t)word();
}

/* The unit, and what a call is given and gives back. The lent part of `out` begins behind its first eight bytes. */
enum { BEFORE = 8, MOST_LENT = 80, BEHIND = 8 };

struct asked {
    size_t door;
    uint8_t b, tep, role;
    bool aware, mandatory, resume, syn, ack;
    uint8_t teps[5], nonce[9], area[41], identifier[19], secret[33];
    size_t teps_length, nonce_length, area_length, identifier_length, secret_length, out_length;
};

static struct unit unit;
static struct asked asked;
static uint8_t out[BEFORE + MOST_LENT + BEHIND], told_secret[DOOR_LINK_SECRET];
static struct door_link_reply reply;

static struct door_link_unit *lent_unit(void) { return (struct door_link_unit *)&unit; }

static void offer(void) {
    reply = door_link_unit_offer(lent_unit(), asked.door, asked.b, asked.aware, asked.mandatory, asked.teps, asked.teps_length, asked.resume, asked.nonce,
                                 asked.nonce_length, out + BEFORE, asked.out_length);
}
static void answer(void) {
    reply = door_link_unit_answer(lent_unit(), asked.door, asked.area, asked.area_length, asked.aware, asked.mandatory, asked.teps, asked.teps_length,
                                  asked.nonce, asked.nonce_length, out + BEFORE, asked.out_length);
}
static void receive(void) { reply = door_link_unit_receive(lent_unit(), asked.door, asked.syn, asked.ack, asked.area, asked.area_length); }
static void resend(void) { reply = door_link_unit_resend(lent_unit(), asked.door, out + BEFORE, asked.out_length); }
static void result(void) { reply = door_link_unit_result(lent_unit(), asked.door, out + BEFORE, asked.out_length, told_secret); }
static void close_door(void) { reply = door_link_unit_close(lent_unit(), asked.door); }
static void store(void) {
    reply = door_link_unit_store(lent_unit(), asked.door, asked.tep, asked.role, asked.identifier, asked.identifier_length, asked.secret, asked.secret_length);
}
static void forget(void) { reply = door_link_unit_forget(lent_unit(), asked.door, asked.tep, asked.identifier, asked.identifier_length); }
static void count(void) { reply = door_link_unit_count(lent_unit(), asked.door); }
static void erase(void) { reply = door_link_unit_erase(lent_unit()); }

/* The calls at a door, and the one of the whole unit behind them. */
enum { OFFER, ANSWER, RECEIVE, RESEND, RESULT, CLOSE, STORE, FORGET, COUNT, DOOR_CALLS, ERASE = DOOR_CALLS, UNIT_CALLS };

static const struct unit_call {
    const char *name;
    void (*make)(void);
} unit_calls[UNIT_CALLS] = {
    {"offer", offer}, {"answer", answer}, {"receive", receive}, {"resend", resend}, {"result", result},
    {"close", close_door}, {"store", store}, {"forget", forget}, {"count", count}, {"erase", erase},
};

/* Any bytes; some words of marks are empty or full. In half of the doors the numbers are near those that the library writes, so that calls get further. */
static void any_unit(void) {
    fill((uint8_t *)&unit, sizeof unit);
    for (size_t i = 0; i < DOOR_LINK_WORDS; i++)
        if (one_in(2)) unit.marks[i] = one_in(2) ? 0 : UINT32_MAX;
    for (size_t i = 0; i < DOOR_LINK_DOORS; i++) {
        struct door *door = &unit.doors[i];
        if (one_in(2)) continue;
        door->phase %= 7;
        door->role %= 3;
        door->own_length %= 45;
        door->peer_length %= 45;
        door->count %= 6;
        for (size_t k = 0; k < 4; k++) {
            struct session_record *row = &unit.rows[door->rows[k] %= DOOR_LINK_ROWS];
            if (one_in(8)) door->rows[k] = (uint8_t)word();
            row->tep = (uint8_t)(0x20 + below(6));
            row->role %= 3;
        }
        if (one_in(2)) {
            static const uint8_t own[4] = {0x45, 4, 0x21, 0x23}, peer[4] = {0x45, 4, 1, 0x23};
            memcpy(door->own, own, door->own_length = sizeof own);
            memcpy(door->peer, peer, door->peer_length = sizeof peer);
        }
    }
}

/* A record that the door lists or has in hand, or another one. */
static struct session_record some_record(const struct door *door) {
    struct session_record record;
    fill((uint8_t *)&record, sizeof record);
    record.tep = (uint8_t)(0x20 + below(6));
    record.role %= 2;
    if (one_in(3)) return record;
    if (door->held && one_in(2)) {
        record.tep = door->hand_tep;
        record.role = door->hand_role;
        memcpy(record.identifier, door->hand_identifier, sizeof record.identifier);
    } else if (door->count && door->rows[below(4)] < DOOR_LINK_ROWS) {
        const size_t listed = door->rows[below(door->count < 4 ? door->count : 4)];
        if (listed < DOOR_LINK_ROWS) record = unit.rows[listed];
    }
    return record;
}

/* An option area as the other side may send it: an option that the door got before, one that proposes or accepts a session, a fresh one, or any bytes. */
static void some_area(const struct door *door, const struct session_record *record) {
    uint8_t *area = asked.area;
    size_t length = 0;
    fill(area, sizeof asked.area); /* nothing is left of the area of an earlier call, which may quote another door's record */
    if (one_in(4)) {
        asked.area_length = below(42);
        return;
    }
    while (one_in(3)) area[length++ % 4] = 1;
    length %= 4;
    uint8_t *option = area + length;
    if (one_in(3) && door->peer_length <= 30) {
        memcpy(option, door->peer, door->peer_length);
        length += door->peer_length;
    } else {
        size_t n = 2;
        option[0] = 0x45;
        if (one_in(2)) option[n++] = (uint8_t)below(4);
        option[n++] = (uint8_t)(0x20 + below(6));
        if (one_in(2)) {
            option[n++] = (uint8_t)(0x80 + record->tep);
            memcpy(option + n, record->identifier + (record->role == 0 ? 9 : 0), 9);
            n += 9 + below(5);
        } else if (one_in(2)) {
            option[n++] = (uint8_t)(0x20 + below(6));
        }
        option[1] = (uint8_t)(one_in(16) ? word() : n);
        length += n;
    }
    asked.area_length = one_in(16) ? below(42) : length;
}

/* Arguments for any call at a door; most fit, some do not. */
static void some_arguments(void) {
    static const struct door nowhere;
    fill((uint8_t *)asked.nonce, sizeof asked.nonce);
    asked.door = one_in(16) ? (one_in(2) ? DOOR_LINK_DOORS : (size_t)word()) : below(DOOR_LINK_DOORS);
    const struct door *door = asked.door < DOOR_LINK_DOORS ? &unit.doors[asked.door] : &nowhere;
    const struct session_record record = some_record(door);
    asked.b = (uint8_t)(one_in(16) ? word() : below(2));
    asked.aware = one_in(2);
    asked.mandatory = asked.aware ? one_in(3) : one_in(16);
    asked.resume = !one_in(3);
    asked.syn = !one_in(3);
    asked.ack = one_in(2);
    asked.teps_length = one_in(16) ? below(6) : 1 + below(3);
    const size_t first = below(4);
    for (size_t i = 0; i < sizeof asked.teps; i++) asked.teps[i] = (uint8_t)(one_in(24) ? word() : 0x21 + (first + i) % 4);
    asked.nonce_length = one_in(16) ? below(10) : below(5);
    some_area(door, &record);
    asked.tep = record.tep;
    asked.role = (uint8_t)(one_in(24) ? word() : record.role);
    memcpy(asked.identifier, record.identifier, sizeof record.identifier);
    memcpy(asked.secret, record.secret, sizeof record.secret);
    asked.identifier_length = one_in(24) ? below(20) : DOOR_LINK_IDENTIFIER;
    asked.secret_length = one_in(24) ? below(34) : DOOR_LINK_SECRET;
    asked.out_length = one_in(3) ? below(30) : below(MOST_LENT + 1);
    fill(out, sizeof out);
}

#endif
