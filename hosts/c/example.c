/* Two ends, each with a unit of its own: a fresh connection with its Init messages, frames and a rekey, then one that resumes a session, then a stream that comes in
 * pieces, then refusals. Silent where all is as it should be. */
#include "door_link.h"

#include <stdio.h>
#include <string.h>

static int failures = 0;

static void expect(bool holds, int line) {
    if (holds) return;
    fprintf(stderr, "example.c:%d: not as it should be\n", line);
    failures++;
}
#define EXPECT(holds) expect((holds), __LINE__)

static bool says(struct door_link_reply reply, uint8_t kind, size_t number) {
    return reply.kind == kind && reply.number == number && (kind == DOOR_LINK_ENCRYPTED || (!reply.role && !reply.tep && !reply.resumed)) && !reply.place &&
           !reply.option;
}

/* An unreadable area: the option of kind `option` that begins at `place` makes it so. */
static bool blames(struct door_link_reply reply, uint8_t kind, size_t number, uint8_t place, uint8_t option) {
    return reply.kind == kind && reply.number == number && reply.place == place && reply.option == option;
}

/* An option area as TCP carries it: two bytes of padding, then the option. Gives its length. */
static size_t area_of(uint8_t area[DOOR_LINK_OPTION], const uint8_t *option, size_t length) {
    area[0] = 1;
    area[1] = 1;
    memcpy(area + 2, option, length);
    return length + 2;
}

struct end {
    struct door_link_unit unit;
    size_t door;
    uint8_t transcript[DOOR_LINK_TRANSCRIPT];
    uint8_t secret[DOOR_LINK_SECRET];
    struct door_link_generations generations;
    uint64_t sends_at, receives_at; /* where the next frame begins, in either direction */
};

/* A whole handshake; both ends then know the same transcript. Gives the TEP byte. */
static uint8_t connect_ends(struct end *active, struct end *passive, bool resume) {
    static const uint8_t active_teps[3] = {DOOR_LINK_P256, DOOR_LINK_CURVE448, DOOR_LINK_CURVE25519};
    static const uint8_t passive_teps[2] = {DOOR_LINK_CURVE448, DOOR_LINK_CURVE25519};
    static const uint8_t active_nonce[DOOR_LINK_NONCE_BYTES] = {1, 2, 3, 4, 5, 6, 7, 8}; /* a host takes random bytes */
    static const uint8_t passive_nonce[DOOR_LINK_NONCE_BYTES] = {9, 10, 11, 12, 13, 14, 15, 16};
    uint8_t option[DOOR_LINK_OPTION], area[DOOR_LINK_OPTION];
    struct door_link_reply reply;

    /* SYN */
    reply = door_link_unit_offer(&active->unit, active->door, 0, false, false, active_teps, 3, resume, active_nonce, sizeof active_nonce, option,
                                 sizeof option);
    EXPECT(door_link_written(reply) == (resume ? 22 : 5));
    size_t length = area_of(area, option, door_link_written(reply));

    /* SYN+ACK */
    reply = door_link_unit_answer(&passive->unit, passive->door, area, length, false, false, passive_teps, 2, passive_nonce, sizeof passive_nonce,
                                  option, sizeof option);
    EXPECT(door_link_written(reply) == (resume ? 21 : 4));
    length = area_of(area, option, door_link_written(reply));
    reply = door_link_unit_receive(&active->unit, active->door, true, true, area, length);
    EXPECT(door_link_is_open(reply));

    /* ACK, with the other end's SYN+ACK once more before it */
    reply = door_link_unit_resend(&passive->unit, passive->door, option, sizeof option);
    EXPECT(says(reply, DOOR_LINK_WRITTEN, resume ? 21 : 4));
    reply = door_link_unit_receive(&passive->unit, passive->door, false, true, door_link_ack_option, sizeof door_link_ack_option);
    EXPECT(door_link_is_open(reply));

    struct door_link_reply a = door_link_unit_result(&active->unit, active->door, active->transcript, sizeof active->transcript, active->secret);
    struct door_link_reply b = door_link_unit_result(&passive->unit, passive->door, passive->transcript, sizeof passive->transcript, passive->secret);
    EXPECT(says(a, DOOR_LINK_ENCRYPTED, resume ? 43 : 9) && says(b, DOOR_LINK_ENCRYPTED, a.number));
    EXPECT(a.role == 0 && b.role == 1);
    EXPECT(a.tep == b.tep && a.resumed == b.resumed && a.resumed == (resume ? 1 : 0));
    EXPECT(memcmp(active->transcript, passive->transcript, a.number) == 0);
    return a.tep;
}

/* Init1 and Init2 after a fresh handshake. Public keys and nonces are the host's to make, and so is the key agreement that follows. */
static void exchange_init(struct end *a, struct end *b, uint8_t tep_byte) {
    static const uint16_t ciphers[2] = {DOOR_LINK_CHACHA20_POLY1305, DOOR_LINK_AES128_GCM};
    const uint8_t tep = tep_byte & 0x7f; /* without v */
    uint8_t nonce_a[DOOR_LINK_INIT_NONCE], nonce_b[DOOR_LINK_INIT_NONCE], key_a[DOOR_LINK_CURVE25519_KEY], key_b[DOOR_LINK_CURVE25519_KEY];
    uint8_t stream[128];
    memset(nonce_a, 0xa1, sizeof nonce_a);
    memset(key_a, 0xa2, sizeof key_a);
    memset(nonce_b, 0xb1, sizeof nonce_b);
    memset(key_b, 0xb2, sizeof key_b);

    /* Host A sends Init1: with v left on, the call is refused. */
    EXPECT(says(door_link_init1_write(tep | 0x80, ciphers, 2, nonce_a, 32, key_a, 32, stream, sizeof stream), DOOR_LINK_REFUSED, DOOR_LINK_UNFIT));
    struct door_link_reply reply = door_link_init1_write(tep, ciphers, 2, nonce_a, 32, key_a, 32, stream, sizeof stream);
    EXPECT(says(reply, DOOR_LINK_WRITTEN, 77));
    a->sends_at = b->receives_at = reply.number;

    /* Host B reads it as it comes, and takes AES-128, since it has no ChaCha20. */
    struct door_link_init_reply init = door_link_init1_read(tep, true, true, false, stream, 20);
    EXPECT(init.kind == DOOR_LINK_REFUSED && init.number == DOOR_LINK_INCOMPLETE);
    init = door_link_init1_read(tep, true, true, false, stream, reply.number);
    EXPECT(init.kind == DOOR_LINK_INIT && init.number == reply.number && init.count == 2 && init.cipher == DOOR_LINK_AES128_GCM);
    EXPECT(memcmp(init.nonce, nonce_a, sizeof nonce_a) == 0 && memcmp(init.key, key_a, sizeof key_a) == 0);

    /* Host B answers with Init2. */
    reply = door_link_init2_write(tep, init.cipher, nonce_b, 32, key_b, 32, stream, sizeof stream);
    EXPECT(says(reply, DOOR_LINK_WRITTEN, 74));
    b->sends_at = a->receives_at = reply.number;
    init = door_link_init2_read(tep, ciphers, 2, stream, reply.number);
    EXPECT(init.kind == DOOR_LINK_INIT && init.number == reply.number && init.cipher == DOOR_LINK_AES128_GCM);
    EXPECT(memcmp(init.nonce, nonce_b, sizeof nonce_b) == 0 && memcmp(init.key, key_b, sizeof key_b) == 0);
}

enum { MOST_DATA = 64, MOST_FRAME = DOOR_LINK_HEADER_BYTES + 3 + MOST_DATA + DOOR_LINK_TAG };

/* STANDS IN FOR THE HOST'S CIPHER, AND CIPHERS NOTHING: the plaintext as it is, and in place of a tag the nonce and the associated data.
 * A host calls its AEAD here, with the keys of the frame's generation. */
static void seal(uint8_t *out, const uint8_t *text, size_t length, const uint8_t nonce[12], const uint8_t associated[3]) {
    memmove(out, text, length);
    memset(out + length, 0, DOOR_LINK_TAG);
    memcpy(out + length, nonce, 12);
    memcpy(out + length + 12, associated, 3);
}

static bool opens(const uint8_t *sealed, size_t length, const uint8_t nonce[12], const uint8_t associated[3]) {
    uint8_t again[MOST_FRAME];
    seal(again, sealed, length - DOOR_LINK_TAG, nonce, associated);
    return memcmp(again, sealed, length) == 0;
}

/* One frame: `step` is what this end's record said of it. Gives the generation under which it came. */
static uint16_t carry(struct end *from, struct end *to, struct door_link_generation_step step, bool fin, const char *data) {
    static const uint8_t fixed[12] = {1, 2, 3, 4, 5, 6, 7, 8, 9, 10, 11, 12}; /* the host derives it with the keys of each generation */
    uint8_t text[3 + MOST_DATA], frame[MOST_FRAME];
    EXPECT(step.kind == DOOR_LINK_SENT);

    /* The sender: plaintext, header, nonce, and its cipher over them. */
    struct door_link_reply reply = door_link_plaintext_write(fin, false, 0, (const uint8_t *)data, strlen(data), text, sizeof text);
    EXPECT(says(reply, DOOR_LINK_WRITTEN, 1 + strlen(data)));
    const size_t clen = reply.number + DOOR_LINK_TAG;
    reply = door_link_header_write(step.rekey, clen, from->sends_at, frame, sizeof frame);
    EXPECT(says(reply, DOOR_LINK_NEXT, from->sends_at + DOOR_LINK_HEADER_BYTES + clen));
    struct door_link_nonce_reply nonce = door_link_nonce(fixed, sizeof fixed, from->sends_at);
    EXPECT(nonce.kind == DOOR_LINK_NONCE);
    seal(frame + DOOR_LINK_HEADER_BYTES, text, clen - DOOR_LINK_TAG, nonce.nonce, frame);
    from->sends_at = reply.number;

    /* The receiver: header, generation, nonce, its cipher; the record is kept once the tag was good. */
    struct door_link_header_reply header = door_link_header_read(frame, DOOR_LINK_HEADER_BYTES, to->receives_at);
    EXPECT(header.kind == DOOR_LINK_HEADER && header.clen == clen && header.rekey == step.rekey);
    struct door_link_generation_step came = door_link_receive_frame(to->generations, header.rekey);
    EXPECT(came.kind == DOOR_LINK_RECEIVED && came.number == step.number);
    nonce = door_link_nonce(fixed, sizeof fixed, to->receives_at);
    EXPECT(nonce.kind == DOOR_LINK_NONCE);
    EXPECT(opens(frame + DOOR_LINK_HEADER_BYTES, header.clen, nonce.nonce, header.associated));
    to->generations = came.next;
    to->receives_at = header.number;
    struct door_link_plaintext_reply read = door_link_plaintext_read(frame + DOOR_LINK_HEADER_BYTES, header.clen - DOOR_LINK_TAG);
    EXPECT(read.kind == DOOR_LINK_PLAINTEXT && read.fin == fin && read.urg == 0 && read.number == 1);
    EXPECT(memcmp(frame + DOOR_LINK_HEADER_BYTES + read.number, data, strlen(data)) == 0);
    return came.number;
}

/* One frame each way, a rekey that the other end follows, and the ends of both directions. */
static void exchange_frames(struct end *a, struct end *b) {
    a->generations = b->generations = door_link_first_record();
    EXPECT(carry(a, b, door_link_generations_send(&a->generations, false), false, "open the doors") == 0);
    EXPECT(carry(b, a, door_link_generations_send(&b->generations, false), false, "doors are open") == 0);

    /* A goes on to new keys; a second time without data has to wait until B followed. */
    EXPECT(carry(a, b, door_link_generations_initiate(&a->generations, true, false), false, "under new keys") == 1);
    EXPECT(door_link_generations_initiate(&a->generations, false, false).number == DOOR_LINK_UNANSWERED);
    EXPECT(door_link_is_owed(b->generations) && !door_link_is_owed(a->generations));
    EXPECT(door_link_generations_initiate(&b->generations, true, false).number == DOOR_LINK_OUT_OF_TURN);
    EXPECT(carry(b, a, door_link_generations_send(&b->generations, false), false, "") == 1);
    EXPECT(!door_link_is_owed(b->generations));

    /* FINp ends a direction. */
    EXPECT(carry(a, b, door_link_generations_send(&a->generations, true), true, "") == 1);
    struct door_link_generation_step step = door_link_generations_send(&a->generations, false);
    EXPECT(step.kind == DOOR_LINK_REFUSED && step.number == DOOR_LINK_FINISHED);
    EXPECT(carry(b, a, door_link_generations_send(&b->generations, true), true, "doors are closed") == 1);
}

/* What host B does with A's stream, Init1 and frames, that TCP hands over in pieces. */
struct receiving {
    struct door_link_pieces reader;
    struct door_link_generations generations;
    struct door_link_fed init, header; /* the Init message; the frame that is under way */
    size_t bodies;
    uint64_t ends; /* where the last body ended */
};

/* One piece, of any length. False where the connection is to be given up. */
static bool take_piece(struct receiving *b, const uint8_t *piece, size_t length) {
    for (size_t at = 0; at < length;) {
        struct door_link_fed fed = door_link_pieces_feed(&b->reader, piece + at, length - at);
        if (fed.kind == DOOR_LINK_REFUSED) return false;
        at += fed.used;
        if (fed.kind == DOOR_LINK_INIT) b->init = fed;
        if (fed.kind == DOOR_LINK_HEADER) b->header = fed;
        if (fed.kind == DOOR_LINK_BODY) { /* the host opens these bytes of the stream, with `header.associated`, at the offset three before them */
            EXPECT(fed.place == b->header.number - b->header.clen && fed.number == b->header.number);
            EXPECT(door_link_generations_receive(&b->generations, b->header.rekey).kind == DOOR_LINK_RECEIVED);
            b->bodies++;
            b->ends = fed.number;
        }
    }
    return true;
}

/* The same stream in pieces of each length. */
static void receive_in_pieces(void) {
    static const uint16_t ciphers[2] = {DOOR_LINK_CHACHA20_POLY1305, DOOR_LINK_AES128_GCM};
    uint8_t nonce[DOOR_LINK_INIT_NONCE], key[DOOR_LINK_CURVE25519_KEY], stream[256];
    memset(nonce, 0xa1, sizeof nonce);
    memset(key, 0xa2, sizeof key);
    size_t length = door_link_written(door_link_init1_write(DOOR_LINK_CURVE25519, ciphers, 2, nonce, 32, key, 32, stream, sizeof stream));
    for (int i = 0; i < 3; i++) {
        struct door_link_reply next = door_link_header_write(i == 1, 20 + (size_t)i, length, stream + length, sizeof stream - length);
        EXPECT(next.kind == DOOR_LINK_NEXT);
        memset(stream + length + 3, 0xb0 + i, next.number - length - 3); /* stands in for the ciphertext */
        length = next.number;
    }
    for (size_t size = 1; size <= length; size++) {
        static struct receiving b;
        b = (struct receiving){.generations = door_link_first_record()};
        EXPECT(says(door_link_pieces_init1(&b.reader, DOOR_LINK_CURVE25519, true, true, false), DOOR_LINK_DONE, 0));
        for (size_t at = 0; at < length; at += size) EXPECT(take_piece(&b, stream + at, length - at < size ? length - at : size));
        EXPECT(b.init.number == 77 && b.init.count == 2 && b.init.cipher == DOOR_LINK_AES128_GCM && b.bodies == 3 && b.ends == length);
        EXPECT(memcmp(b.reader.gathered + b.init.place, nonce, 32) == 0 && memcmp(b.reader.gathered + b.init.place + 32, key, 32) == 0);
        EXPECT(b.generations.remote == 1);

        /* A header that no frame has: refused, and again, until the reader is started anew. */
        EXPECT(!take_piece(&b, (const uint8_t *)"\0\0\0", 3) && !take_piece(&b, stream, 1));
        struct door_link_fed fed = door_link_pieces_feed(&b.reader, NULL, 0);
        EXPECT(fed.kind == DOOR_LINK_REFUSED && fed.number == DOOR_LINK_NO_FRAME && fed.place == length + 2);
        EXPECT(says(door_link_pieces_frames(&b.reader), DOOR_LINK_DONE, 0) && take_piece(&b, stream, 1));
    }
}

int main(void) {
    static const uint8_t tep = DOOR_LINK_CURVE25519;
    static const uint8_t zeros[DOOR_LINK_SECRET] = {0};
    static struct end active = {.door = 0}, passive = {.door = DOOR_LINK_DOORS - 1};
    door_link_unit_erase(&active.unit);
    door_link_unit_erase(&passive.unit);
    uint8_t identifier[DOOR_LINK_IDENTIFIER], secret[DOOR_LINK_SECRET];
    for (size_t i = 0; i < sizeof identifier; i++) identifier[i] = (uint8_t)(0x40 + i);
    for (size_t i = 0; i < sizeof secret; i++) secret[i] = (uint8_t)(0xc0 + i);

    /* Fresh: no secret is given. */
    EXPECT(connect_ends(&active, &passive, false) == tep);
    static const uint8_t fresh[9] = {0x45, 0x05, 0x21, 0x24, 0x23, 0x45, 0x04, 0x01, 0x23};
    EXPECT(memcmp(active.transcript, fresh, sizeof fresh) == 0);
    EXPECT(memcmp(active.secret, zeros, sizeof zeros) == 0 && memcmp(passive.secret, zeros, sizeof zeros) == 0);

    exchange_init(&active, &passive, tep);
    exchange_frames(&active, &passive);

    /* Both ends keep a session of that connection, each with its own role in it. */
    EXPECT(says(door_link_unit_store(&active.unit, active.door, tep, 0, identifier, sizeof identifier, secret, sizeof secret), DOOR_LINK_DONE, 0));
    EXPECT(says(door_link_unit_store(&passive.unit, passive.door, tep, 1, identifier, sizeof identifier, secret, sizeof secret), DOOR_LINK_DONE, 0));
    EXPECT(says(door_link_unit_count(&active.unit, active.door), DOOR_LINK_HOLDS, 1));
    EXPECT(says(door_link_unit_close(&active.unit, active.door), DOOR_LINK_DONE, 0));
    EXPECT(says(door_link_unit_close(&passive.unit, passive.door), DOOR_LINK_DONE, 0));

    /* Resumed: the TEP byte has v, the secret is the stored one, and the record is used up at both ends. */
    EXPECT(connect_ends(&active, &passive, true) == (tep | 0x80));
    EXPECT(memcmp(active.secret, secret, sizeof secret) == 0 && memcmp(passive.secret, secret, sizeof secret) == 0);
    EXPECT(says(door_link_unit_count(&active.unit, active.door), DOOR_LINK_HOLDS, 0));
    EXPECT(says(door_link_unit_count(&passive.unit, passive.door), DOOR_LINK_HOLDS, 0));

    /* No Init messages then: the frames begin where the streams do. */
    active.sends_at = active.receives_at = passive.sends_at = passive.receives_at = 0;
    exchange_frames(&active, &passive);
    receive_in_pieces();

    /* Refusals leave the unit as it was. */
    struct door_link_unit before = active.unit;
    uint8_t area[41] = {1}, out[8];
    EXPECT(says(door_link_unit_close(&active.unit, DOOR_LINK_DOORS), DOOR_LINK_REFUSED, DOOR_LINK_NO_DOOR));
    EXPECT(says(door_link_unit_close(&active.unit, (size_t)-1), DOOR_LINK_REFUSED, DOOR_LINK_NO_DOOR));
    EXPECT(says(door_link_unit_receive(&active.unit, 0, true, true, area, sizeof area), DOOR_LINK_REFUSED, DOOR_LINK_AREA_TOO_LONG));
    EXPECT(says(door_link_unit_offer(&active.unit, 1, 0, false, false, NULL, 0, false, NULL, 0, out, sizeof out), DOOR_LINK_REFUSED, DOOR_LINK_UNFIT));
    EXPECT(says(door_link_unit_offer(&active.unit, 1, 0, false, true, &tep, 1, false, NULL, 0, out, sizeof out), DOOR_LINK_REFUSED, DOOR_LINK_UNFIT));
    EXPECT(says(door_link_unit_receive(&active.unit, 1, true, true, NULL, 0), DOOR_LINK_REFUSED, DOOR_LINK_OUT_OF_TURN));
    EXPECT(says(door_link_unit_offer(&active.unit, 1, 0, false, false, &tep, 1, false, NULL, 0, NULL, 0), DOOR_LINK_REFUSED, DOOR_LINK_NO_ROOM));
    EXPECT(says(door_link_unit_store(&active.unit, 1, tep, 2, identifier, 18, secret, 32), DOOR_LINK_REFUSED, DOOR_LINK_UNFIT));
    EXPECT(says(door_link_unit_forget(&active.unit, 1, tep, identifier, 18), DOOR_LINK_REFUSED, DOOR_LINK_NOT_HELD));
    EXPECT(memcmp(&before, &active.unit, sizeof before) == 0);

    /* Four records at a door, and no two alike; another door has room. */
    for (uint8_t i = 0; i < DOOR_LINK_RECORDS; i++) {
        identifier[0] = i;
        EXPECT(says(door_link_unit_store(&active.unit, 1, tep, 0, identifier, 18, secret, 32), DOOR_LINK_DONE, 0));
        if (i == 0) EXPECT(says(door_link_unit_store(&active.unit, 1, tep, 1, identifier, 18, zeros, 32), DOOR_LINK_REFUSED, DOOR_LINK_ALREADY_HELD));
    }
    identifier[0] = 4;
    EXPECT(says(door_link_unit_store(&active.unit, 1, tep, 0, identifier, 18, secret, 32), DOOR_LINK_REFUSED, DOOR_LINK_FULL));
    EXPECT(says(door_link_unit_store(&active.unit, 2, tep, 0, identifier, 18, secret, 32), DOOR_LINK_DONE, 0));

    /* A SYN without an ENO option: plain TCP with its reason, and nothing written. */
    memset(out, 0xee, sizeof out);
    EXPECT(says(door_link_unit_answer(&active.unit, 3, area, 1, false, false, &tep, 1, NULL, 0, out, sizeof out), DOOR_LINK_PLAIN, DOOR_LINK_NO_OPTION));
    EXPECT(out[0] == 0xee);
    EXPECT(says(door_link_unit_result(&active.unit, 3, NULL, 0, secret), DOOR_LINK_PLAIN, DOOR_LINK_NO_OPTION));

    /* One whose area breaks off in its second option, at place 4: the door says where, and again when it is asked. */
    static const uint8_t breaks_off[6] = {0x45, 0x04, 0x21, 0x23, 0x08, 0x0a};
    struct door_link_reply broken = door_link_unit_answer(&active.unit, 4, breaks_off, 6, false, false, &tep, 1, NULL, 0, out, sizeof out);
    EXPECT(blames(broken, DOOR_LINK_PLAIN, DOOR_LINK_UNREADABLE, 4, 0x08));
    EXPECT(blames(door_link_unit_result(&active.unit, 4, NULL, 0, secret), DOOR_LINK_PLAIN, DOOR_LINK_UNREADABLE, 4, 0x08));

    /* The finder: padding and an option, padding alone, an option that is cut off, too long an area. */
    static const uint8_t cut_off[4] = {0x01, 0x45, 0x03, 0x23};
    EXPECT(says(door_link_find_status(cut_off, 4, true), DOOR_LINK_FOUND, 0));
    EXPECT(says(door_link_find_status(cut_off, 1, true), DOOR_LINK_NONE, 0));
    EXPECT(blames(door_link_find_status(cut_off, 3, true), DOOR_LINK_BROKEN, 0, 1, 0x45));
    EXPECT(says(door_link_find_status(area, sizeof area, false), DOOR_LINK_REFUSED, DOOR_LINK_AREA_TOO_LONG));

    /* Erased when they are no longer needed: zeros, and no record is left. */
    static const struct door_link_unit empty;
    EXPECT(says(door_link_unit_erase(&active.unit), DOOR_LINK_DONE, 0) && says(door_link_unit_erase(&passive.unit), DOOR_LINK_DONE, 0));
    EXPECT(memcmp(&empty, &active.unit, sizeof empty) == 0 && memcmp(&empty, &passive.unit, sizeof empty) == 0);
    return failures ? 1 : 0;
}
