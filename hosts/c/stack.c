/* How much stack each call of the library takes: random calls over random contents, and the calls without a unit over inputs of all lengths, each on a stack that was
 * painted before. Prints the most that each call took, and fails where one took more than MOST bytes. The function of the header and the return address count too. */
#include "painted.h"
#include "random_calls.h"

#include <stdio.h>

enum { MOST = DOOR_LINK_STACK, ROUNDS = 400, CALLS_A_ROUND = 20, CALLS_OF_A_UNIT = 8000, CALLS_WITHOUT_A_UNIT = 2000 };

/* What the calls without a unit are given. */
static struct {
    uint16_t ciphers[256];
    uint8_t bytes[700], key[56], nonce[32], lent[700];
    size_t ciphers_count, bytes_length, key_length, nonce_length, lent_length, clen;
    uint64_t offset;
    uint8_t tep;
    bool flag, other;
    struct door_link_generations generations;
    struct door_link_hand hand;
    struct door_link_pieces reader;
} given;

/* Keeps the compiler from leaving a call out. */
static volatile uint8_t kept;

static void find_status(void) { kept = door_link_find_status(given.bytes, given.bytes_length % 45, given.flag).kind; }
static void judge(void) { kept = door_link_judge(given.bytes, given.bytes_length % 45, asked.area, asked.area_length, given.flag, given.hand).reply.kind; }
static void judge_plainly(void) {
    kept = door_link_judge_plainly(given.bytes, given.bytes_length % 45, asked.area, asked.area_length, given.flag, given.hand).reply.kind;
}
static void init1_write(void) {
    kept = door_link_init1_write(given.tep, given.ciphers, given.ciphers_count, given.nonce, given.nonce_length, given.key, given.key_length, given.lent,
                                 given.lent_length)
               .kind;
}
static void init2_write(void) {
    kept = door_link_init2_write(given.tep, given.ciphers[0], given.nonce, given.nonce_length, given.key, given.key_length, given.lent, given.lent_length).kind;
}
static void init1_read(void) { kept = door_link_init1_read(given.tep, given.flag, given.other, true, given.lent, given.lent_length).kind; }
static void init2_read(void) { kept = door_link_init2_read(given.tep, given.ciphers, given.ciphers_count, given.lent, given.lent_length).kind; }
static void next_offset(void) { kept = door_link_next_offset(given.offset, given.clen).kind; }
static void header_write(void) { kept = door_link_header_write(given.flag, given.clen, given.offset, given.lent, given.lent_length).kind; }
static void header_read(void) { kept = door_link_header_read(given.bytes, given.bytes_length, given.offset).kind; }
static void frame_id(void) { kept = door_link_frame_id(given.offset).bytes[0]; }
static void nonce(void) { kept = door_link_nonce(given.nonce, given.nonce_length % 14, given.offset).kind; }
static void plaintext_write(void) {
    kept = door_link_plaintext_write(given.flag, given.other, given.ciphers[0], given.bytes, given.bytes_length, given.lent, given.lent_length).kind;
}
static void plaintext_read(void) { kept = door_link_plaintext_read(given.bytes, given.bytes_length).kind; }
static void start_init1(void) { kept = door_link_pieces_init1(&given.reader, given.tep, given.flag, given.other, true).kind; }
static void start_init2(void) { kept = door_link_pieces_init2(&given.reader, given.tep, given.ciphers, given.ciphers_count).kind; }
static void start_frames(void) { kept = door_link_pieces_frames(&given.reader).kind; }
static void feed(void) { kept = door_link_pieces_feed(&given.reader, given.bytes, given.bytes_length).kind; }
static void feed_init1(void) { start_init1(), kept = door_link_pieces_feed(&given.reader, given.lent, given.lent_length).kind; }
static void feed_init2(void) { start_init2(), kept = door_link_pieces_feed(&given.reader, given.lent, given.lent_length).kind; }
static void first_record(void) { kept = door_link_first_record().fin; }
static void is_owed(void) { kept = door_link_is_owed(given.generations); }
static void send_frame(void) { kept = door_link_generations_send(&given.generations, given.flag).kind; }
static void initiate(void) { kept = door_link_generations_initiate(&given.generations, given.flag, given.other).kind; }
static void receive_frame(void) { kept = door_link_generations_receive(&given.generations, given.flag).kind; }

static const struct unit_call other_calls[] = {
    {"find_status", find_status}, {"judge", judge}, {"judge_plainly", judge_plainly}, {"init1_write", init1_write}, {"init1_read", init1_read},
    {"feed_init1", feed_init1}, {"init2_write", init2_write}, {"init2_read", init2_read}, {"feed_init2", feed_init2}, {"next_offset", next_offset}, {"header_write", header_write}, {"header_read", header_read}, {"frame_id", frame_id},
    {"nonce", nonce}, {"plaintext_write", plaintext_write}, {"plaintext_read", plaintext_read}, {"first_record", first_record}, {"is_owed", is_owed},
    {"start_init1", start_init1}, {"start_init2", start_init2}, {"start_frames", start_frames}, {"feed", feed},
    {"send", send_frame}, {"initiate", initiate}, {"receive_frame", receive_frame},
};

enum { OTHER_CALLS = sizeof other_calls / sizeof other_calls[0] };

static size_t deepest[UNIT_CALLS + OTHER_CALLS];

/* Runs a call on two paints, from the same state, since a byte may be written as it was painted. */
static void measure(size_t place, void (*make)(void)) {
    static const uint8_t paints[2] = {0x5a, 0xa5};
    const struct unit before = unit;
    const struct door_link_generations record = given.generations;
    const struct door_link_pieces reader = given.reader;
    for (int i = 0; i < 2; i++) {
        unit = before;
        given.generations = record;
        given.reader = reader;
        run_painted(make, paints[i]);
        const size_t depth = painted_depth(paints[i]);
        if (depth > deepest[place]) deepest[place] = depth;
    }
}

static void call_of_the_unit(void) {
    const size_t call = one_in(4) ? STORE : below(DOOR_CALLS);
    some_arguments();
    measure(call, unit_calls[call].make);
}

static void some_input(void) {
    const bool long_key = one_in(2);
    fill(given.bytes, sizeof given.bytes);
    given.bytes_length = one_in(3) ? below(50) : below(sizeof given.bytes + 1);
    if (one_in(2)) given.bytes[0] = 0x45;
    for (size_t i = 0; i < 256; i++) given.ciphers[i] = (uint16_t)(one_in(2) ? 1 : word());
    given.ciphers_count = one_in(4) ? 256 - below(3) : below(5);
    given.tep = one_in(8) ? (uint8_t)word() : long_key ? 0x24 : 0x23;
    given.key_length = long_key ? 56 : 32;
    given.nonce_length = one_in(8) ? below(33) : 32;
    given.lent_length = one_in(4) ? below(sizeof given.lent + 1) : sizeof given.lent;
    given.offset = one_in(4) ? UINT64_MAX - below(70000) : word();
    given.clen = one_in(4) ? (size_t)word() : below(66000);
    given.flag = one_in(2);
    given.other = one_in(2);
    given.generations.local = (uint16_t)word();
    given.generations.remote = (uint16_t)word();
    given.generations.last = one_in(2) ? given.generations.local : (uint16_t)word();
    given.generations.fin = one_in(4);
    fill((uint8_t *)&given.reader, sizeof given.reader);
    given.reader.numbers[0] = one_in(2) ? below(5000) : word();
    given.reader.numbers[3] = below(8);
    const struct session_record record = some_record(&unit.doors[below(DOOR_LINK_DOORS)]);
    given.hand.held = one_in(2);
    memcpy(&given.hand.session, &record, sizeof record);
}

static void measure_all(void) {
    for (int round = 0; round < ROUNDS; round++) {
        any_unit();
        for (int i = 0; i < CALLS_A_ROUND; i++) call_of_the_unit();
    }
    measure(ERASE, erase);
    erase();
    for (int i = 0; i < CALLS_OF_A_UNIT; i++) call_of_the_unit();
    for (int i = 0; i < CALLS_WITHOUT_A_UNIT; i++) {
        some_arguments();
        some_input();
        for (size_t k = 0; k < OTHER_CALLS; k++) measure(UNIT_CALLS + k, other_calls[k].make);
    }
}

int main(void) {
    size_t most = 0;
    const char *which = "";
    /* Once unmeasured: the first call of memcpy may look for it, on the stack that is measured. */
    any_unit();
    for (int i = 0; i < 200; i++) call_of_the_unit();
    some_input();
    for (size_t k = 0; k < OTHER_CALLS; k++) measure(0, other_calls[k].make);
    memset(deepest, 0, sizeof deepest);

    measure_all();
    for (size_t i = 0; i < UNIT_CALLS + OTHER_CALLS; i++) {
        const char *name = i < UNIT_CALLS ? unit_calls[i].name : other_calls[i - UNIT_CALLS].name;
        printf("%-16s %5zu\n", name, deepest[i]);
        if (deepest[i] <= most) continue;
        most = deepest[i];
        which = name;
    }
    printf("deepest: %s, %zu of at most %d bytes\n", which, most, MOST);
    return most > MOST;
}
