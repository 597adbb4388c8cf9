/* The structs of door_link.h and door_link_messages.h against the library's: sizes and offsets as the compiler lays out the fields that the library declares (crates
 * eno, generation and host, each `#[repr(C)]`), the unit's bytes as crate unit_bytes lays them out, read after a few calls, and replies whose fields all differ.
 * Silent where all agree. A host needs none of this. */
#include "layout.h"

#include <stdio.h>
#include <string.h>

struct in_hand {
    bool held;
    struct session_record session;
};

_Static_assert(sizeof(bool) == 1 && sizeof(size_t) == 8, "numbers");
_Static_assert(sizeof(struct session_record) == 52 && _Alignof(struct session_record) == 1, "a session record");
_Static_assert(offsetof(struct session_record, identifier) == 2 && offsetof(struct session_record, secret) == 20, "a session record's fields");
_Static_assert(sizeof(struct in_hand) == 53 && offsetof(struct in_hand, session) == 1, "a record in hand");
_Static_assert(sizeof(struct door) == 148 && _Alignof(struct door) == 1, "a door");
_Static_assert(offsetof(struct door, mandatory) == 1 && offsetof(struct door, reason) == 2 && offsetof(struct door, role) == 5, "a door's numbers");
_Static_assert(offsetof(struct door, resumed) == 7 && offsetof(struct door, held) == 10 && offsetof(struct door, rows) == 14, "a door's numbers");
_Static_assert(offsetof(struct door, own) == 18 && offsetof(struct door, peer) == 58, "a door's options");
_Static_assert(offsetof(struct door, hand_identifier) == 98 && offsetof(struct door, hand_secret) == 116, "a door's record in hand");
_Static_assert(DOOR_LINK_WORDS * 32 == DOOR_LINK_ROWS && DOOR_LINK_DOORS * DOOR_LINK_RECORDS <= DOOR_LINK_ROWS, "a mark for each row, rows for all");
enum { ROWS_AT = 4 * DOOR_LINK_WORDS, DOORS_AT = ROWS_AT + 52 * DOOR_LINK_ROWS, UNIT_SIZE = DOORS_AT + 148 * DOOR_LINK_DOORS };
_Static_assert(sizeof(struct unit) == UNIT_SIZE && _Alignof(struct unit) == 4, "a unit");
_Static_assert(offsetof(struct unit, rows) == ROWS_AT && offsetof(struct unit, doors) == DOORS_AT, "a unit's fields");

_Static_assert(sizeof(struct door_link_unit) == sizeof(struct unit) && _Alignof(struct door_link_unit) == 4, "the header's unit");
_Static_assert(sizeof(struct door_link_unit) == DOOR_LINK_UNIT && offsetof(struct door_link_unit, marks) == 0, "the header's unit: its size, marks");
_Static_assert(offsetof(struct door_link_unit, rows) == ROWS_AT && offsetof(struct door_link_unit, doors) == DOORS_AT, "the header's unit: rows, doors");
_Static_assert(sizeof(struct door_link_reply) == 16 && _Alignof(struct door_link_reply) == 8, "the header's reply");
_Static_assert(offsetof(struct door_link_reply, number) == 0 && offsetof(struct door_link_reply, kind) == 8, "the header's reply: number, kind");
_Static_assert(offsetof(struct door_link_reply, role) == 9 && offsetof(struct door_link_reply, tep) == 10, "the header's reply: role, tep");
_Static_assert(offsetof(struct door_link_reply, resumed) == 11, "the header's reply: resumed");
_Static_assert(offsetof(struct door_link_reply, place) == 12 && offsetof(struct door_link_reply, option) == 13, "the header's reply: place, option");
_Static_assert(sizeof(struct door_link_result_reply) == 48 && _Alignof(struct door_link_result_reply) == 8, "the header's result");
_Static_assert(offsetof(struct door_link_result_reply, reply) == 0 && offsetof(struct door_link_result_reply, secret) == 16, "the header's result's fields");

_Static_assert(sizeof(struct door_link_init_reply) == 112 && _Alignof(struct door_link_init_reply) == 8, "an Init message");
_Static_assert(offsetof(struct door_link_init_reply, number) == 0 && offsetof(struct door_link_init_reply, count) == 8, "an Init message: number, count");
_Static_assert(offsetof(struct door_link_init_reply, cipher) == 16 && offsetof(struct door_link_init_reply, kind) == 18, "an Init message: cipher, kind");
_Static_assert(offsetof(struct door_link_init_reply, nonce) == 19 && offsetof(struct door_link_init_reply, key) == 51, "an Init message: nonce, key");
_Static_assert(sizeof(struct door_link_header_reply) == 16 && _Alignof(struct door_link_header_reply) == 8, "a frame's header");
_Static_assert(offsetof(struct door_link_header_reply, number) == 0 && offsetof(struct door_link_header_reply, clen) == 8, "a header: number, clen");
_Static_assert(offsetof(struct door_link_header_reply, kind) == 10 && offsetof(struct door_link_header_reply, rekey) == 11, "a header: kind, rekey");
_Static_assert(offsetof(struct door_link_header_reply, associated) == 12, "a header: associated data");
_Static_assert(sizeof(struct door_link_id) == 12 && _Alignof(struct door_link_id) == 1, "a frame ID");
_Static_assert(sizeof(struct door_link_nonce_reply) == 24 && _Alignof(struct door_link_nonce_reply) == 8, "a nonce");
_Static_assert(offsetof(struct door_link_nonce_reply, number) == 0 && offsetof(struct door_link_nonce_reply, kind) == 8, "a nonce: number, kind");
_Static_assert(offsetof(struct door_link_nonce_reply, nonce) == 9, "a nonce: its bytes");
_Static_assert(sizeof(struct door_link_plaintext_reply) == 16 && _Alignof(struct door_link_plaintext_reply) == 8, "a plaintext");
_Static_assert(offsetof(struct door_link_plaintext_reply, number) == 0 && offsetof(struct door_link_plaintext_reply, urgent) == 8, "a plaintext: number, urgent");
_Static_assert(offsetof(struct door_link_plaintext_reply, kind) == 10 && offsetof(struct door_link_plaintext_reply, fin) == 11, "a plaintext: kind, fin");
_Static_assert(offsetof(struct door_link_plaintext_reply, urg) == 12, "a plaintext: urg");
_Static_assert(sizeof(struct door_link_pieces) == 4640 && _Alignof(struct door_link_pieces) == 8, "a reader of pieces");
_Static_assert(offsetof(struct door_link_pieces, numbers) == 0 && offsetof(struct door_link_pieces, gathered) == 32, "a reader of pieces: its arrays");
_Static_assert(sizeof(struct door_link_fed) == 48 && _Alignof(struct door_link_fed) == 8, "what a reader says");
_Static_assert(offsetof(struct door_link_fed, number) == 0 && offsetof(struct door_link_fed, place) == 8, "what a reader says: number, place");
_Static_assert(offsetof(struct door_link_fed, used) == 16 && offsetof(struct door_link_fed, count) == 24, "what a reader says: used, count");
_Static_assert(offsetof(struct door_link_fed, cipher) == 32 && offsetof(struct door_link_fed, clen) == 34, "what a reader says: cipher, clen");
_Static_assert(offsetof(struct door_link_fed, kind) == 36 && offsetof(struct door_link_fed, rekey) == 37, "what a reader says: kind, rekey");
_Static_assert(offsetof(struct door_link_fed, associated) == 38, "what a reader says: associated data");
_Static_assert(sizeof(struct door_link_generations) == 8 && _Alignof(struct door_link_generations) == 2, "a generation record");
_Static_assert(offsetof(struct door_link_generations, local) == 0 && offsetof(struct door_link_generations, remote) == 2, "a generation record: local, remote");
_Static_assert(offsetof(struct door_link_generations, last) == 4 && offsetof(struct door_link_generations, fin) == 6, "a generation record: last, fin");
_Static_assert(sizeof(struct door_link_generation_step) == 12 && _Alignof(struct door_link_generation_step) == 2, "a generation step");
_Static_assert(offsetof(struct door_link_generation_step, next) == 0 && offsetof(struct door_link_generation_step, number) == 8, "a step: next, number");
_Static_assert(offsetof(struct door_link_generation_step, kind) == 10 && offsetof(struct door_link_generation_step, rekey) == 11, "a step: kind, rekey");
_Static_assert(sizeof(struct door_link_session) == sizeof(struct session_record) && _Alignof(struct door_link_session) == 1, "the header's session record");
_Static_assert(offsetof(struct door_link_session, tep) == 0 && offsetof(struct door_link_session, role) == 1, "the header's session record: tep, role");
_Static_assert(offsetof(struct door_link_session, identifier) == 2 && offsetof(struct door_link_session, secret) == 20, "its identifier and secret");
_Static_assert(sizeof(struct door_link_hand) == sizeof(struct in_hand) && offsetof(struct door_link_hand, session) == 1, "the header's record in hand");
_Static_assert(sizeof(struct door_link_judgement) == 96 && _Alignof(struct door_link_judgement) == 8, "a judgement");
_Static_assert(offsetof(struct door_link_judgement, reply) == 0 && offsetof(struct door_link_judgement, transcript) == 16, "a judgement's fields");

static int failures = 0;

static void expect(bool holds, int line) {
    if (holds) return;
    fprintf(stderr, "layout.c:%d: not where it should be\n", line);
    failures++;
}
#define EXPECT(holds) expect((holds), __LINE__)

static struct unit seen(const struct door_link_unit *from) {
    struct unit u;
    memcpy(&u, from, sizeof u);
    return u;
}

/* Bytes from a first one upwards. */
static void count_up(uint8_t *bytes, size_t length, uint8_t first) {
    for (size_t i = 0; i < length; i++) bytes[i] = (uint8_t)(first + i);
}

static bool all_zero(const uint8_t *bytes, size_t length) {
    for (size_t i = 0; i < length; i++)
        if (bytes[i]) return false;
    return true;
}

/* Init messages: the second cipher of three is taken, so that cipher, count and length differ. */
static void init_messages(void) {
    static const uint16_t ciphers[3] = {0x7788, DOOR_LINK_AES256_GCM, DOOR_LINK_CHACHA20_POLY1305};
    uint8_t nonce[32], key[56], message[128];
    count_up(nonce, 32, 0x40);
    count_up(key, 56, 0x80);
    struct door_link_reply reply = door_link_init1_write(DOOR_LINK_CURVE448, ciphers, 3, nonce, 32, key, 56, message, sizeof message);
    EXPECT(reply.kind == DOOR_LINK_WRITTEN && reply.number == 103 && !reply.role && !reply.tep && !reply.resumed);
    struct door_link_init_reply init = door_link_init1_read(DOOR_LINK_CURVE448, true, true, false, message, reply.number);
    EXPECT(init.kind == DOOR_LINK_INIT && init.number == 103 && init.count == 3 && init.cipher == DOOR_LINK_AES256_GCM);
    EXPECT(memcmp(init.nonce, nonce, 32) == 0 && memcmp(init.key, key, 56) == 0);
    init = door_link_init1_read(DOOR_LINK_CURVE448, true, false, true, message, reply.number);
    EXPECT(init.kind == DOOR_LINK_INIT && init.cipher == DOOR_LINK_CHACHA20_POLY1305);
    init = door_link_init1_read(DOOR_LINK_CURVE448, true, false, false, message, reply.number);
    EXPECT(init.kind == DOOR_LINK_REFUSED && init.number == DOOR_LINK_NO_CIPHER && !init.count && !init.cipher);
    EXPECT(all_zero(init.nonce, 32) && all_zero(init.key, 56));

    reply = door_link_init2_write(DOOR_LINK_CURVE25519, 0x1234, nonce, 32, key, 32, message, sizeof message);
    EXPECT(reply.kind == DOOR_LINK_WRITTEN && reply.number == 74);
    static const uint16_t own[1] = {0x1234};
    init = door_link_init2_read(DOOR_LINK_CURVE25519, own, 1, message, reply.number);
    EXPECT(init.kind == DOOR_LINK_INIT && init.number == 74 && init.count == 1 && init.cipher == 0x1234);
    EXPECT(memcmp(init.nonce, nonce, 32) == 0 && memcmp(init.key, key, 32) == 0 && all_zero(init.key + 32, 24));
}

/* Frames: offsets above four bytes, so that no half of one is lost. */
static void frames(void) {
    const uint64_t offset = 0x0102030405060708u;
    uint8_t header[3] = {0xff, 0x01, 0x23}, fixed[12], bytes[8];
    struct door_link_reply reply = door_link_next_offset(offset, 0x123);
    EXPECT(reply.kind == DOOR_LINK_NEXT && reply.number == offset + 0x126 && !reply.role && !reply.tep && !reply.resumed);
    struct door_link_header_reply read = door_link_header_read(header, 3, offset);
    EXPECT(read.kind == DOOR_LINK_HEADER && read.number == offset + 0x126 && read.clen == 0x123 && read.rekey == 1);
    EXPECT(memcmp(read.associated, header, 3) == 0);
    reply = door_link_header_write(true, 0x123, offset, header, 3);
    EXPECT(reply.kind == DOOR_LINK_NEXT && reply.number == offset + 0x126 && header[0] == 1 && header[1] == 0x01 && header[2] == 0x23);
    read = door_link_header_read(header, 2, offset);
    EXPECT(read.kind == DOOR_LINK_REFUSED && read.number == DOOR_LINK_INCOMPLETE && !read.clen && !read.rekey && all_zero(read.associated, 3));

    static const uint8_t id[12] = {0x44, 0x41, 0x54, 0x41, 1, 2, 3, 4, 5, 6, 7, 8};
    struct door_link_id made = door_link_frame_id(offset);
    EXPECT(memcmp(made.bytes, id, 12) == 0);
    count_up(fixed, 12, 0x30);
    struct door_link_nonce_reply nonce = door_link_nonce(fixed, 12, offset);
    EXPECT(nonce.kind == DOOR_LINK_NONCE && nonce.number == 0);
    for (size_t i = 0; i < 12; i++) EXPECT(nonce.nonce[i] == (id[i] ^ fixed[i]));
    nonce = door_link_nonce(fixed, 11, offset);
    EXPECT(nonce.kind == DOOR_LINK_REFUSED && nonce.number == DOOR_LINK_UNFIT && all_zero(nonce.nonce, 12));

    reply = door_link_plaintext_write(false, true, 0x5678, fixed, 4, bytes, sizeof bytes);
    EXPECT(reply.kind == DOOR_LINK_WRITTEN && reply.number == 7 && bytes[0] == 2 && memcmp(bytes + 3, fixed, 4) == 0);
    struct door_link_plaintext_reply text = door_link_plaintext_read(bytes, 7);
    EXPECT(text.kind == DOOR_LINK_PLAINTEXT && text.number == 3 && text.urgent == 0x5678 && text.fin == 0 && text.urg == 1);
    bytes[0] = 0xfd;
    text = door_link_plaintext_read(bytes, 7);
    EXPECT(text.kind == DOOR_LINK_PLAINTEXT && text.number == 1 && text.urgent == 0 && text.fin == 1 && text.urg == 0);
    text = door_link_plaintext_read(bytes, 0);
    EXPECT(text.kind == DOOR_LINK_REFUSED && text.number == DOOR_LINK_NO_PLAINTEXT && !text.urgent && !text.fin && !text.urg);
}

/* The numbers of a reader. */
static bool stands(const struct door_link_pieces *r, uint64_t position, uint64_t first, uint64_t second, uint64_t stage) {
    return r->numbers[0] == position && r->numbers[1] == first && r->numbers[2] == second && r->numbers[3] == stage;
}

/* What a reader says, with no number of another kind. */
static bool tells(struct door_link_fed fed, uint8_t kind, uint64_t number, uint64_t place, size_t used) {
    if (fed.kind != DOOR_LINK_INIT && (fed.count || fed.cipher)) return false;
    if (fed.kind != DOOR_LINK_HEADER && (fed.clen || fed.rekey || !all_zero(fed.associated, 3))) return false;
    return fed.kind == kind && fed.number == number && fed.place == place && fed.used == used;
}

/* Pieces: the reader's numbers and bytes after each step, and replies whose fields all differ. */
static void pieces(void) {
    static const uint16_t ciphers[3] = {0x7788, DOOR_LINK_AES256_GCM, DOOR_LINK_CHACHA20_POLY1305};
    struct door_link_pieces reader;
    uint8_t nonce[32], key[56], stream[160];
    count_up(nonce, 32, 0x40);
    count_up(key, 56, 0x80);
    EXPECT(door_link_init1_write(DOOR_LINK_CURVE448, ciphers, 3, nonce, 32, key, 56, stream, sizeof stream).number == 103);
    memcpy(stream + 103, "\xff\x00\x12", 3);
    memset(stream + 106, 0xcc, 54);

    /* Init1: gathered as it comes, and the bytes behind it are as they were. */
    memset(&reader, 0xee, sizeof reader);
    struct door_link_reply reply = door_link_pieces_init1(&reader, 0x21, true, true, true);
    EXPECT(reply.kind == DOOR_LINK_REFUSED && reply.number == DOOR_LINK_UNFIT && reader.numbers[3] == 0xeeeeeeeeeeeeeeeeu);
    reply = door_link_pieces_init1(&reader, DOOR_LINK_CURVE448, false, true, true);
    EXPECT(reply.kind == DOOR_LINK_DONE && !reply.number && stands(&reader, 0, DOOR_LINK_CURVE448, 6, 4));
    EXPECT(tells(door_link_pieces_feed(&reader, stream, 50), DOOR_LINK_WAITING, 0, 0, 50) && stands(&reader, 50, DOOR_LINK_CURVE448, 6, 4));
    EXPECT(tells(door_link_pieces_feed(&reader, NULL, 7), DOOR_LINK_WAITING, 0, 0, 0) && reader.gathered[50] == 0xee);
    struct door_link_fed fed = door_link_pieces_feed(&reader, stream + 50, 110);
    EXPECT(tells(fed, DOOR_LINK_INIT, 103, 15, 53) && fed.count == 3 && fed.cipher == DOOR_LINK_AES256_GCM && stands(&reader, 103, 0, 0, 0));
    EXPECT(memcmp(reader.gathered, stream, 103) == 0 && reader.gathered[103] == 0xee && reader.gathered[4607] == 0xee);
    EXPECT(memcmp(reader.gathered + fed.place, nonce, 32) == 0 && memcmp(reader.gathered + fed.place + 32, key, 56) == 0);

    /* A frame behind it: header and body. */
    EXPECT(tells(door_link_pieces_feed(&reader, stream + 103, 1), DOOR_LINK_WAITING, 0, 0, 1) && stands(&reader, 104, 0xff, 0, 1));
    EXPECT(tells(door_link_pieces_feed(&reader, stream + 104, 1), DOOR_LINK_WAITING, 0, 0, 1) && stands(&reader, 105, 0xff, 0, 2));
    fed = door_link_pieces_feed(&reader, stream + 105, 55);
    EXPECT(tells(fed, DOOR_LINK_HEADER, 124, 0, 1) && fed.clen == 18 && fed.rekey == 1 && memcmp(fed.associated, stream + 103, 3) == 0);
    EXPECT(stands(&reader, 106, 106, 124, 3));
    EXPECT(tells(door_link_pieces_feed(&reader, stream + 106, 54), DOOR_LINK_BODY, 124, 106, 18) && stands(&reader, 124, 0, 0, 0));

    /* A refusal stays: a ciphertext of 16 bytes is none. */
    for (int i = 0; i < 3; i++)
        EXPECT(tells(door_link_pieces_feed(&reader, (const uint8_t *)"\0\0\x10", i == 1 ? 0 : 3), DOOR_LINK_REFUSED, 11, 126, 0) && stands(&reader, 126, 11, 0, 6));
    EXPECT(door_link_pieces_init2(&reader, DOOR_LINK_CURVE25519, ciphers, 256).number == DOOR_LINK_UNFIT && stands(&reader, 126, 11, 0, 6));

    /* Init2: A's list, behind the longest message. */
    EXPECT(door_link_pieces_init2(&reader, DOOR_LINK_CURVE25519, ciphers, 3).kind == DOOR_LINK_DONE && stands(&reader, 0, DOOR_LINK_CURVE25519, 3, 5));
    EXPECT(memcmp(reader.gathered + 4096, "\x77\x88\0\x02\0\x10\xee", 7) == 0 && memcmp(reader.gathered, stream, 103) == 0);
    EXPECT(door_link_init2_write(DOOR_LINK_CURVE25519, 0x7788, nonce, 32, key, 32, stream, sizeof stream).number == 74);
    fed = door_link_pieces_feed(&reader, stream, 74);
    EXPECT(tells(fed, DOOR_LINK_INIT, 74, 10, 74) && fed.count == 1 && fed.cipher == 0x7788 && memcmp(reader.gathered, stream, 74) == 0);

    /* Frames from the start on: four numbers will do. */
    EXPECT(door_link_pieces_frames(&reader).kind == DOOR_LINK_DONE && stands(&reader, 0, 0, 0, 0));
    EXPECT(tells(door_link_feed(reader.numbers, 4, reader.gathered, 0, (const uint8_t *)"\0\0\x11", 3), DOOR_LINK_HEADER, 20, 0, 3));
    EXPECT(tells(door_link_feed(reader.numbers, 3, reader.gathered, 4608, stream, 74), DOOR_LINK_REFUSED, DOOR_LINK_NO_ROOM, 0, 0) && stands(&reader, 3, 3, 20, 3));
    EXPECT(door_link_start_frames(reader.numbers, 3).number == DOOR_LINK_NO_ROOM && door_link_start_init1(0x23, true, true, true, reader.numbers, 3).number == 5);
    EXPECT(door_link_start_init2(0x23, ciphers, 3, reader.numbers, 4, reader.gathered, 4607).number == DOOR_LINK_NO_ROOM && stands(&reader, 3, 3, 20, 3));
    EXPECT(door_link_pieces_init1(&reader, 0x23, true, true, true).kind == DOOR_LINK_DONE);
    EXPECT(tells(door_link_feed(reader.numbers, 4, reader.gathered, 4607, stream, 74), DOOR_LINK_REFUSED, DOOR_LINK_NO_ROOM, 0, 0) && stands(&reader, 0, 0x23, 7, 4));
}

static bool has(struct door_link_generations g, uint16_t local, uint16_t remote, uint16_t last, bool fin) {
    return g.local == local && g.remote == remote && g.last == last && g.fin == fin;
}

/* Generations: a record whose numbers all differ. */
static void generations(void) {
    struct door_link_generations g = {.local = 0x0506, .remote = 0x0304, .last = 0x0102, .fin = false};
    EXPECT(has(door_link_first_record(), 0, 0, 0, false) && !door_link_is_owed(door_link_first_record()) && door_link_is_owed(g));
    struct door_link_generation_step step = door_link_send(g, true);
    EXPECT(step.kind == DOOR_LINK_SENT && step.number == 0x0103 && step.rekey == 1 && has(step.next, 0x0506, 0x0304, 0x0103, true));
    step = door_link_receive_frame(step.next, true);
    EXPECT(step.kind == DOOR_LINK_RECEIVED && step.number == 0x0305 && step.rekey == 0 && has(step.next, 0x0506, 0x0305, 0x0103, true));
    step = door_link_send(step.next, false);
    EXPECT(step.kind == DOOR_LINK_REFUSED && step.number == DOOR_LINK_FINISHED && step.rekey == 0 && has(step.next, 0x0506, 0x0305, 0x0103, true));
    EXPECT(!door_link_is_owed(step.next) && door_link_initiate(step.next, true, false).number == DOOR_LINK_FINISHED);
    g.last = g.local;
    step = door_link_initiate(g, true, false);
    EXPECT(step.kind == DOOR_LINK_SENT && step.number == 0x0507 && step.rekey == 1 && has(step.next, 0x0507, 0x0304, 0x0507, false));
    step = door_link_initiate(g, false, true);
    EXPECT(step.kind == DOOR_LINK_REFUSED && step.number == DOOR_LINK_UNANSWERED && has(step.next, 0x0506, 0x0304, 0x0506, false));
}

/* What the two judges say, which is the same. */
static struct door_link_judgement judged(const uint8_t *own, size_t own_length, const uint8_t *peer, size_t peer_length, bool mandatory, struct door_link_hand hand) {
    struct door_link_judgement says = door_link_judge(own, own_length, peer, peer_length, mandatory, hand);
    struct door_link_judgement also = door_link_judge_plainly(own, own_length, peer, peer_length, mandatory, hand);
    EXPECT(says.reply.number == also.reply.number && says.reply.kind == also.reply.kind && says.reply.role == also.reply.role && says.reply.tep == also.reply.tep);
    EXPECT(says.reply.resumed == also.reply.resumed && says.reply.place == also.reply.place && says.reply.option == also.reply.option);
    EXPECT(memcmp(says.transcript, also.transcript, sizeof says.transcript) == 0);
    return says;
}

/* The judges: the session of the case R, resumed and not. */
static void judgement(void) {
    uint8_t own[13] = {0x45, 0x0d, 0x21, 0xa3}, peer[13] = {0x45, 0x0d, 0x01, 0xa3};
    struct door_link_hand hand = {.held = true, .session = {.tep = 0x23, .role = 0}};
    count_up(hand.session.identifier, 18, 0);
    count_up(hand.session.secret, 32, 0x60);
    memcpy(own + 4, hand.session.identifier, 9);
    memcpy(peer + 4, hand.session.identifier + 9, 9);
    struct door_link_judgement says = judged(own, 13, peer, 13, false, hand);
    EXPECT(says.reply.kind == DOOR_LINK_ENCRYPTED && says.reply.number == 26 && says.reply.role == 0 && says.reply.tep == 0xa3 && says.reply.resumed == 1);
    EXPECT(!says.reply.place && !says.reply.option);
    EXPECT(memcmp(says.transcript, own, 13) == 0 && memcmp(says.transcript + 13, peer, 13) == 0 && all_zero(says.transcript + 26, 54));
    says = judged(peer, 13, own, 13, false, hand);
    EXPECT(says.reply.kind == DOOR_LINK_PLAIN && says.reply.number == DOOR_LINK_NO_TEP && !says.reply.role && !says.reply.tep && !says.reply.resumed);
    hand.session.role = 1;
    says = judged(peer, 13, own, 13, false, hand);
    EXPECT(says.reply.kind == DOOR_LINK_ENCRYPTED && says.reply.number == 26 && says.reply.role == 1 && says.reply.tep == 0xa3 && says.reply.resumed == 1);
    hand.held = false;
    says = judged(own, 13, peer, 13, false, hand);
    EXPECT(says.reply.kind == DOOR_LINK_PLAIN && says.reply.number == DOOR_LINK_NO_TEP && all_zero(says.transcript, sizeof says.transcript));
    says = judged(own, 13, peer, 13, true, hand);
    EXPECT(says.reply.kind == DOOR_LINK_PLAIN && says.reply.number == DOOR_LINK_NOT_AWARE);
}

/* An area that is unreadable, and where. */
struct broken {
    uint8_t area[40];
    size_t length;
    uint8_t place, option;
};

/* A reply that has no other numbers than these. */
static bool blames(struct door_link_reply reply, uint8_t kind, size_t number, const struct broken *broken) {
    return reply.kind == kind && reply.number == number && reply.place == broken->place && reply.option == broken->option && !reply.role && !reply.tep &&
           !reply.resumed;
}

/* A door that has become Plain over such an area: the unit keeps the cause, and receive and result give it again. */
static void stays(struct door_link_unit *unit, size_t door, struct door_link_reply reply, const struct broken *broken) {
    uint8_t out[80], secret[32];
    EXPECT(blames(reply, DOOR_LINK_PLAIN, DOOR_LINK_UNREADABLE, broken));
    const struct door at = seen(unit).doors[door];
    EXPECT(at.reason == DOOR_LINK_UNREADABLE && at.place == broken->place && at.kind == broken->option);
    EXPECT(blames(door_link_unit_receive(unit, door, true, false, NULL, 0), DOOR_LINK_PLAIN, DOOR_LINK_UNREADABLE, broken));
    for (int i = 0; i < 2; i++)
        EXPECT(blames(door_link_unit_result(unit, door, out, sizeof out, secret), DOOR_LINK_PLAIN, DOOR_LINK_UNREADABLE, broken));
    reply = door_link_unit_close(unit, door);
    EXPECT(reply.kind == DOOR_LINK_DONE && !reply.place && !reply.option);
}

/* Place and kind in every call that reads an area. */
static void places(void) {
    static const uint8_t tep = DOOR_LINK_CURVE25519, syn[3] = {0x45, 3, 0x23}, syn_ack[4] = {0x45, 4, 1, 0x23}, refused[41] = {1};
    static const struct door_link_hand none = {.held = false};
    struct broken all[] = {
        {{0x01, 0x01, 0x02, 0x04, 0x05, 0xb4, 0x08}, 7, 6, 0x08},
        {{0x45, 0x03, 0x23, 0x02}, 4, 3, 0x02},
        {{0x45, 0x02, 0x45, 0x02, 0x02, 0x01}, 6, 4, 0x02},
        {{0x45, 0x01}, 2, 0, 0x45},
        {{0}, 40, 39, 0x45},
    };
    memset(all[4].area, 1, 39);
    all[4].area[39] = 0x45;
    struct door_link_unit unit;
    door_link_unit_erase(&unit);
    uint8_t out[40];
    const size_t door = 21;
    for (size_t i = 0; i < sizeof all / sizeof all[0]; i++) {
        const struct broken *broken = &all[i];
        for (int flag = 0; flag < 2; flag++) {
            EXPECT(blames(door_link_find_status(broken->area, broken->length, flag), DOOR_LINK_BROKEN, 0, broken));
            /* Offered, with a SYN and a SYN+ACK. */
            EXPECT(door_link_unit_offer(&unit, door, 0, false, false, &tep, 1, false, NULL, 0, out, sizeof out).kind == DOOR_LINK_WRITTEN);
            stays(&unit, door, door_link_unit_receive(&unit, door, true, flag, broken->area, broken->length), broken);
            /* Crossed, with an ACK and a SYN+ACK. */
            EXPECT(door_link_unit_offer(&unit, door, 0, false, false, &tep, 1, false, NULL, 0, out, sizeof out).kind == DOOR_LINK_WRITTEN);
            EXPECT(door_link_unit_receive(&unit, door, true, false, syn_ack, sizeof syn_ack).number == DOOR_LINK_CROSSED);
            stays(&unit, door, door_link_unit_receive(&unit, door, flag, true, broken->area, broken->length), broken);
            /* Answered, with an ACK and a SYN. */
            EXPECT(door_link_unit_answer(&unit, door, syn, sizeof syn, false, false, &tep, 1, NULL, 0, out, sizeof out).kind == DOOR_LINK_WRITTEN);
            stays(&unit, door, door_link_unit_receive(&unit, door, flag, !flag, broken->area, broken->length), broken);
        }
        stays(&unit, door, door_link_unit_answer(&unit, door, broken->area, broken->length, false, false, &tep, 1, NULL, 0, out, sizeof out), broken);

        /* The judge: of two unreadable areas the own one's, and a refusal before both. */
        struct door_link_judgement says = judged(syn, sizeof syn, broken->area, broken->length, false, none);
        EXPECT(blames(says.reply, DOOR_LINK_PLAIN, DOOR_LINK_UNREADABLE, broken) && all_zero(says.transcript, sizeof says.transcript));
        for (size_t j = 0; j < sizeof all / sizeof all[0]; j++) {
            says = judged(broken->area, broken->length, all[j].area, all[j].length, false, none);
            EXPECT(blames(says.reply, DOOR_LINK_PLAIN, DOOR_LINK_UNREADABLE, broken) && all_zero(says.transcript, sizeof says.transcript));
        }
        says = judged(broken->area, broken->length, refused, sizeof refused, false, none);
        EXPECT(says.reply.kind == DOOR_LINK_REFUSED && says.reply.number == DOOR_LINK_AREA_TOO_LONG && !says.reply.place && !says.reply.option);
    }
    static const struct broken own = {{0x02}, 1, 0, 0x02}, peer = {{0x01, 0x03, 0x01}, 3, 1, 0x03};
    EXPECT(blames(judged(own.area, own.length, peer.area, peer.length, false, none).reply, DOOR_LINK_PLAIN, DOOR_LINK_UNREADABLE, &own));
    EXPECT(blames(judged(syn, sizeof syn, peer.area, peer.length, false, none).reply, DOOR_LINK_PLAIN, DOOR_LINK_UNREADABLE, &peer));

    /* The end mark hides a fault; place 0 of a readable area is no fault's. */
    static const uint8_t hidden[5] = {0x45, 0x03, 0x23, 0x00, 0x02};
    struct door_link_reply reply = door_link_find_status(hidden, sizeof hidden, true);
    EXPECT(reply.kind == DOOR_LINK_FOUND && !reply.number && !reply.place && !reply.option);
}

int main(void) {
    enum { LAST = DOOR_LINK_DOORS - 1, OTHER = DOOR_LINK_DOORS - 2 };
    static const uint8_t teps[2] = {0x21, 0x24};
    static const uint8_t nonce[3] = {7, 8, 9};
    struct door_link_unit unit;
    uint8_t identifier[18], secret[32], out[40], area[40];
    for (size_t i = 0; i < 18; i++) identifier[i] = (uint8_t)(0x80 + i);
    for (size_t i = 0; i < 32; i++) secret[i] = (uint8_t)(0x20 + i);

    /* The empty unit is zeros, whatever the memory held. */
    memset(&unit, 0xee, sizeof unit);
    door_link_unit_erase(&unit);
    EXPECT(all_zero((const uint8_t *)&unit, sizeof unit));
    EXPECT(door_link_abi_6() == DOOR_LINK_ABI && door_link_unit_size() == sizeof unit);

    /* The second record's row, and its number at the door. */
    EXPECT(door_link_unit_store(&unit, OTHER, 0x23, 0, identifier, 18, secret, 32).kind == DOOR_LINK_DONE);
    EXPECT(door_link_unit_store(&unit, LAST, 0x24, 1, identifier, 18, secret, 32).kind == DOOR_LINK_DONE);
    struct unit u = seen(&unit);
    EXPECT(u.marks[0] == 3 && all_zero((const uint8_t *)(u.marks + 1), sizeof u.marks - sizeof u.marks[0]));
    EXPECT(u.rows[1].tep == 0x24 && u.rows[1].role == 1);
    EXPECT(memcmp(u.rows[1].identifier, identifier, 18) == 0 && memcmp(u.rows[1].secret, secret, 32) == 0);
    EXPECT(u.doors[LAST].count == 1 && u.doors[LAST].rows[0] == 1 && u.doors[LAST].phase == 0);

    /* Offered with that record in hand. */
    struct door_link_reply reply = door_link_unit_offer(&unit, LAST, 0, true, true, teps, 2, true, nonce, 3, out, sizeof out);
    EXPECT(reply.kind == DOOR_LINK_WRITTEN && reply.number == 17);
    u = seen(&unit);
    EXPECT(u.marks[0] == 1 && u.rows[1].tep == 0 && u.doors[LAST].count == 0);
    EXPECT(u.doors[LAST].phase == 1 && u.doors[LAST].mandatory == 1);
    EXPECT(u.doors[LAST].own_length == 17 && memcmp(u.doors[LAST].own, out, 17) == 0);
    EXPECT(u.doors[LAST].held == 1 && u.doors[LAST].hand_tep == 0x24 && u.doors[LAST].hand_role == 1);
    EXPECT(memcmp(u.doors[LAST].hand_identifier, identifier, 18) == 0);
    EXPECT(memcmp(u.doors[LAST].hand_secret, secret, 32) == 0);

    /* Open: the other side answers with the half that this end expects. */
    memcpy(area, "\x45\x0d\x03\xa4", 4);
    memcpy(area + 4, identifier, 9);
    EXPECT(door_link_unit_receive(&unit, LAST, true, true, area, 13).number == DOOR_LINK_OPEN);
    u = seen(&unit);
    EXPECT(u.doors[LAST].phase == 4 && u.doors[LAST].role == 0 && u.doors[LAST].tep == 0xa4 && u.doors[LAST].resumed == 1);
    EXPECT(u.doors[LAST].peer_length == 13 && memcmp(u.doors[LAST].peer, area, 13) == 0);

    /* Plain: the other side has no option. */
    EXPECT(door_link_unit_offer(&unit, OTHER, 1, false, false, teps, 2, false, nonce, 0, out, sizeof out).number == 5);
    reply = door_link_unit_receive(&unit, OTHER, true, true, area, 0);
    EXPECT(reply.kind == DOOR_LINK_PLAIN && reply.number == DOOR_LINK_NO_OPTION && !reply.place && !reply.option);
    u = seen(&unit);
    EXPECT(u.doors[OTHER].phase == 5 && u.doors[OTHER].reason == DOOR_LINK_NO_OPTION && !u.doors[OTHER].place && !u.doors[OTHER].kind);

    init_messages();
    frames();
    pieces();
    generations();
    judgement();
    places();
    return failures ? 1 : 0;
}
