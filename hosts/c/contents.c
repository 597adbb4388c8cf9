/* Random contents of the unit with random calls, through the compiled library. For any bytes: no byte of another door moves, no row but the one that the call takes
 * or frees; a refused call, and resend, result and count, change no byte; a lent buffer is written as far as the reply says. For units that calls made, the same,
 * and after each call no record of another door stands on the dead stack, nor one of its own once the stack was wiped. Last, null pointers with lengths other than 0.
 * Silent where all is as it should be. */
#include "random_calls.h"

#if defined(__SANITIZE_ADDRESS__)
#define SANITIZED 1
#elif defined(__has_feature)
#if __has_feature(address_sanitizer)
#define SANITIZED 1
#endif
#endif
#ifndef SANITIZED
#include "painted.h"
#endif

#include <stdio.h>

enum { ROUNDS = 3000, CALLS_A_ROUND = 40, CALLS_OF_A_UNIT = 60000 };

static int failures = 0;

static void expect(bool holds, int line) {
    if (holds || failures++ > 20) return;
    fprintf(stderr, "contents.c:%d: not as it should be\n", line);
}
#define EXPECT(holds) expect((holds), __LINE__)

static bool zeros(const void *bytes, size_t length) {
    for (size_t i = 0; i < length; i++)
        if (((const uint8_t *)bytes)[i]) return false;
    return true;
}

/* How often each call was refused with each number, and how often it was not. */
static unsigned refused[UNIT_CALLS][17], accepted[UNIT_CALLS], records_taken, resumed_results;

/* Which rows were in use after some call of a unit that calls made. */
static bool rows_met[DOOR_LINK_ROWS];

/* Whether a door's list has a row. */
static bool lists(const struct door *door, size_t row) {
    for (size_t i = 0; i < 4 && i < door->count; i++)
        if (door->rows[i] == row) return true;
    return false;
}

/* Compares unit and lent buffer with what they were before the call. */
static void compare(int call, const struct unit *before, const struct asked *given, const uint8_t *lent) {
    const size_t door = asked.door;
    EXPECT(memcmp(given, &asked, sizeof asked) == 0);
    for (size_t i = 0; i < DOOR_LINK_DOORS; i++)
        if (i != door) EXPECT(memcmp(&before->doors[i], &unit.doors[i], sizeof unit.doors[i]) == 0);

    size_t changed = 0, row = 0;
    for (size_t i = 0; i < DOOR_LINK_ROWS; i++) {
        if (marked(before, i) == marked(&unit, i) && memcmp(&before->rows[i], &unit.rows[i], sizeof unit.rows[i]) == 0) continue;
        changed++;
        row = i;
    }
    EXPECT(changed <= 1);
    if (changed && call == STORE) {
        EXPECT(!marked(before, row) && marked(&unit, row) && unit.rows[row].tep == asked.tep && unit.rows[row].role == asked.role);
        EXPECT(memcmp(unit.rows[row].identifier, asked.identifier, 18) == 0 && memcmp(unit.rows[row].secret, asked.secret, 32) == 0);
        for (size_t i = 0; i < row; i++) EXPECT(marked(before, i));
    } else if (changed) {
        EXPECT(call == OFFER || call == ANSWER || call == FORGET);
        EXPECT(door < DOOR_LINK_DOORS && lists(&before->doors[door], row) && !marked(&unit, row) && zeros(&unit.rows[row], sizeof unit.rows[row]));
        records_taken++;
    }

    const bool writes = reply.kind == DOOR_LINK_WRITTEN || reply.kind == DOOR_LINK_ENCRYPTED;
    const size_t written = writes ? reply.number : 0;
    EXPECT(written <= asked.out_length);
    EXPECT(memcmp(out, lent, BEFORE) == 0 && memcmp(out + BEFORE + written, lent + BEFORE + written, sizeof out - BEFORE - written) == 0);
    if (reply.kind == DOOR_LINK_REFUSED || call == RESEND || call == RESULT || call == COUNT) EXPECT(memcmp(before, &unit, sizeof unit) == 0);
    if (call == RESULT && !reply.resumed) EXPECT(zeros(told_secret, sizeof told_secret));
    if (door >= DOOR_LINK_DOORS) EXPECT(reply.kind == DOOR_LINK_REFUSED && reply.number == DOOR_LINK_NO_DOOR);

    if (reply.kind != DOOR_LINK_REFUSED) accepted[call]++;
    else if (reply.number < 17) refused[call][reply.number]++;
    else EXPECT(false);
    resumed_results += call == RESULT && reply.resumed;
}

/* Any bytes are a unit. */
static void any_bytes(void) {
    static struct unit before;
    uint8_t lent[sizeof out];
    for (int round = 0; round < ROUNDS; round++) {
        any_unit();
        for (int i = 0; i < CALLS_A_ROUND; i++) {
            const int call = (int)below(DOOR_CALLS);
            some_arguments();
            const struct asked given = asked;
            before = unit;
            memcpy(lent, out, sizeof out);
            unit_calls[call].make();
            compare(call, &before, &given, lent);
        }
        erase();
        EXPECT(reply.kind == DOOR_LINK_DONE && zeros(&unit, sizeof unit));
    }
}

/* Eight bytes all along a record's identifier and its secret. The first four are a mark that names its door, by its number and one: a copy that is cut off behind them names it still. */
static void mark_bytes(uint8_t *bytes, size_t length, size_t door, uint32_t serial) {
    for (size_t i = 0; i < length; i++) {
        const uint8_t eight[8] = {0xd7, 0x5e, (uint8_t)(door + 1), 0xe9, 0xc2, (uint8_t)serial, (uint8_t)(serial >> 8), (uint8_t)(serial >> 16)};
        bytes[i] = eight[i % 8];
    }
}

/* A mark names one of the doors: two copies over one another may have its other three bytes by chance. */
static bool is_mark(const uint8_t *at) { return at[0] == 0xd7 && at[1] == 0x5e && 1 <= at[2] && at[2] <= DOOR_LINK_DOORS && at[3] == 0xe9; }

#ifndef SANITIZED
/* Whether a mark of another door stands on the stack that the call ran on; counts those of its own. */
static unsigned own_marks;

static bool another_door_left(size_t door) {
    const uint8_t *at = painted_stack, *end = painted_stack + sizeof painted_stack - 8;
    while ((at = memchr(at, 0xd7, (size_t)(end - at)))) {
        if (is_mark(at)) {
            if (at[2] != door + 1) return true;
            own_marks++;
        }
        at++;
    }
    return false;
}
#endif

#ifndef SANITIZED
/* A call of the unit with the wipe behind it, for the painted stack. */
static void (*wiped)(void);
static void call_and_wipe(void) {
    wiped();
    door_link_wipe_stack();
}
#endif

/* Every second call is wiped: then no record at all is left, and not one byte above what the painted stack's own frame takes. */
static void run_call(int call, bool wipe) {
#ifdef SANITIZED
    unit_calls[call].make();
    if (wipe) door_link_wipe_stack();
#else
    wiped = unit_calls[call].make;
    const unsigned before = own_marks;
    run_painted(wipe ? call_and_wipe : wiped, 0);
    EXPECT(!another_door_left(asked.door));
    if (wipe) {
        EXPECT(own_marks == before);
        EXPECT(zeros(painted_stack, sizeof painted_stack - 64));
    }
#endif
}

/* The marks, made anew of the doors' lists: they are those of the unit, no row is listed twice, and a row that is not marked is zeros. */
static void marks_agree(void) {
    uint32_t marks[DOOR_LINK_WORDS] = {0};
    for (size_t door = 0; door < DOOR_LINK_DOORS; door++)
        for (size_t i = 0; i < unit.doors[door].count; i++) {
            const size_t row = unit.doors[door].rows[i];
            EXPECT(row < DOOR_LINK_ROWS && !(marks[row / 32] >> row % 32 & 1));
            marks[row / 32] |= UINT32_C(1) << row % 32;
        }
    EXPECT(memcmp(marks, unit.marks, sizeof marks) == 0);
    for (size_t row = 0; row < DOOR_LINK_ROWS; row++)
        if (!marked(&unit, row)) EXPECT(zeros(&unit.rows[row], sizeof unit.rows[row]));
}

/* A unit that calls made, from the empty one on, and from erasures between them: its flags stay 0 or 1, and its marks agree with the doors' lists. */
static void made_by_calls(void) {
    static struct unit before;
    uint8_t lent[sizeof out];
    uint32_t serial = 0;
    erase();
    for (int i = 0; i < CALLS_OF_A_UNIT; i++) {
        if (one_in(4000)) {
            erase();
            marks_agree();
        }
        const int call = one_in(3) ? STORE : (int)below(DOOR_CALLS);
        some_arguments();
        if (call == STORE) {
            serial++;
            if (!is_mark(asked.identifier)) mark_bytes(asked.identifier, sizeof asked.identifier, asked.door, serial);
            mark_bytes(asked.secret, sizeof asked.secret, asked.door, serial);
        }
        const struct asked given = asked;
        before = unit;
        memcpy(lent, out, sizeof out);
        run_call(call, i % 2 == 1);
        compare(call, &before, &given, lent);
        marks_agree();
        for (size_t k = 0; k < DOOR_LINK_ROWS; k++) rows_met[k] |= marked(&unit, k);
        for (size_t k = 0; k < DOOR_LINK_DOORS; k++)
            EXPECT(unit.doors[k].mandatory <= 1 && unit.doors[k].resumed <= 1 && unit.doors[k].held <= 1);
    }
#ifndef SANITIZED
    /* The look at the stack sees what is there: the stack has this door's own records, and the same bytes under another door's number are found. */
    EXPECT(own_marks > 1000);
    run_painted(count, 0);
    mark_bytes(painted_stack + 60000, 32, 3, 1);
    EXPECT(another_door_left(4) && !another_door_left(3));
#endif
}

/* All of it was met. */
static void met(void) {
    static const struct {
        int call;
        size_t numbers[7];
    } all[] = {
        {OFFER, {1, 3, 4, 5}}, {ANSWER, {1, 2, 3, 4, 5}}, {RECEIVE, {1, 2, 4}}, {RESEND, {1, 4, 5}}, {RESULT, {1, 4, 5}}, {CLOSE, {1}},
        {STORE, {1, 3, 6, 7}}, {FORGET, {1, 3, 16}}, {COUNT, {1}},
    };
    for (size_t i = 0; i < sizeof all / sizeof all[0]; i++) {
        bool enough = accepted[all[i].call] >= 100;
        for (size_t k = 0; all[i].numbers[k]; k++) enough = enough && refused[all[i].call][all[i].numbers[k]] >= 20;
        if (enough) continue;
        fprintf(stderr, "%s: too little was met: accepted %u, refused", unit_calls[all[i].call].name, accepted[all[i].call]);
        for (size_t k = 0; k < 17; k++) fprintf(stderr, " %u", refused[all[i].call][k]);
        fprintf(stderr, "\n");
        failures++;
    }
    EXPECT(records_taken >= 100 && resumed_results >= 20);
    for (size_t i = 0; i <= 2 * DOOR_LINK_ROWS / 3; i++) EXPECT(rows_met[i]);
}

static bool says(struct door_link_reply got, uint8_t kind, size_t number) { return got.kind == kind && got.number == number; }

static bool refuses(struct door_link_reply got, size_t number, const struct unit *before) {
    return says(got, DOOR_LINK_REFUSED, number) && memcmp(before, &unit, sizeof unit) == 0;
}

/* Null counts as length 0, whatever length stands beside it. */
static void nulls(void) {
    static const size_t lengths[] = {0, 1, 4, 8, 18, 32, 40, 41, 80, 1000000, SIZE_MAX};
    static const uint8_t teps[2] = {DOOR_LINK_P256, DOOR_LINK_CURVE25519}, syn[4] = {0x45, 4, 0x21, 0x23}, syn_ack[4] = {0x45, 4, 1, 0x23};
    static const uint8_t identifier[18] = {1}, secret[32] = {2};
    struct door_link_unit *u = lent_unit();
    struct unit before;
    uint8_t option[40], again[40], given[32];
    for (size_t i = 0; i < sizeof lengths / sizeof lengths[0]; i++) {
        const size_t n = lengths[i];
        erase();
        EXPECT(says(door_link_unit_store(u, 7, DOOR_LINK_CURVE25519, 0, identifier, 18, secret, 32), DOOR_LINK_DONE, 0));
        EXPECT(says(door_link_unit_store(u, 8, DOOR_LINK_CURVE25519, 0, identifier, 18, secret, 32), DOOR_LINK_DONE, 0));

        /* Refused with 3: a list, an identifier, a secret. With 5: a lent buffer. */
        before = unit;
        EXPECT(refuses(door_link_unit_offer(u, 7, 0, false, false, NULL, n, true, NULL, n, option, 40), DOOR_LINK_UNFIT, &before));
        EXPECT(refuses(door_link_unit_offer(u, 7, 0, false, false, teps, 2, true, NULL, n, NULL, n), DOOR_LINK_NO_ROOM, &before));
        EXPECT(refuses(door_link_unit_answer(u, 7, syn, 4, false, false, NULL, n, NULL, n, option, 40), DOOR_LINK_UNFIT, &before));
        EXPECT(refuses(door_link_unit_answer(u, 7, syn, 4, false, false, teps, 2, NULL, n, NULL, n), DOOR_LINK_NO_ROOM, &before));
        EXPECT(refuses(door_link_unit_store(u, 7, DOOR_LINK_P256, 0, NULL, n, secret, 32), DOOR_LINK_UNFIT, &before));
        EXPECT(refuses(door_link_unit_store(u, 7, DOOR_LINK_P256, 0, identifier, 18, NULL, n), DOOR_LINK_UNFIT, &before));
        EXPECT(refuses(door_link_unit_store(u, 7, DOOR_LINK_P256, 0, NULL, n, NULL, n), DOOR_LINK_UNFIT, &before));
        EXPECT(refuses(door_link_unit_forget(u, 7, DOOR_LINK_CURVE25519, NULL, n), DOOR_LINK_UNFIT, &before));
        EXPECT(refuses(door_link_unit_receive(u, 7, true, true, NULL, n), DOOR_LINK_OUT_OF_TURN, &before));
        EXPECT(refuses(door_link_unit_resend(u, 7, NULL, n), DOOR_LINK_OUT_OF_TURN, &before));
        EXPECT(refuses(door_link_unit_result(u, 7, NULL, n, NULL), DOOR_LINK_OUT_OF_TURN, &before));

        /* A nonce is empty: the same bytes as with length 0. */
        EXPECT(says(door_link_unit_offer(u, 7, 0, false, false, teps, 2, true, NULL, n, option, 40), DOOR_LINK_WRITTEN, 13));
        EXPECT(says(door_link_unit_offer(u, 8, 0, false, false, teps, 2, true, identifier, 0, again, 40), DOOR_LINK_WRITTEN, 13));
        EXPECT(memcmp(option, again, 13) == 0);
        before = unit;
        EXPECT(refuses(door_link_unit_resend(u, 7, NULL, n), DOOR_LINK_NO_ROOM, &before));

        /* An area has no option. */
        EXPECT(says(door_link_unit_receive(u, 8, true, true, NULL, n), DOOR_LINK_PLAIN, DOOR_LINK_NO_OPTION));
        memset(given, 0xee, sizeof given);
        EXPECT(says(door_link_unit_result(u, 8, NULL, n, given), DOOR_LINK_PLAIN, DOOR_LINK_NO_OPTION) && zeros(given, sizeof given));
        EXPECT(says(door_link_unit_answer(u, 9, NULL, n, false, false, teps, 2, NULL, n, NULL, n), DOOR_LINK_PLAIN, DOOR_LINK_NO_OPTION));

        /* Open: no room for the transcript; the secret may be left out. */
        EXPECT(says(door_link_unit_answer(u, 10, syn, 4, false, false, teps, 2, NULL, n, option, 40), DOOR_LINK_WRITTEN, 4));
        EXPECT(memcmp(option, syn_ack, 4) == 0);
        EXPECT(says(door_link_unit_receive(u, 10, false, true, syn, 4), DOOR_LINK_NOW, DOOR_LINK_OPEN));
        before = unit;
        memset(given, 0xee, sizeof given);
        EXPECT(refuses(door_link_unit_result(u, 10, NULL, n, given), DOOR_LINK_NO_ROOM, &before) && zeros(given, sizeof given));
        EXPECT(says(door_link_unit_result(u, 10, option, 40, NULL), DOOR_LINK_ENCRYPTED, 8));
    }
}

int main(void) {
    nulls();
    any_bytes();
    made_by_calls();
    met();
    return failures ? 1 : 0;
}
