/* The calls without a unit with null pointers, for every pointer and beside every length; the questions about a reply, over every kind with the numbers of all others;
 * the texts. Silent where all is as it should be. */
#include "door_link.h"

#include <stdio.h>
#include <string.h>

static int failures = 0;

static void expect(bool holds, int line) {
    if (holds || failures++ > 20) return;
    fprintf(stderr, "replies.c:%d: not as it should be\n", line);
}
#define EXPECT(holds) expect((holds), __LINE__)

static bool says(struct door_link_reply got, uint8_t kind, size_t number) { return got.kind == kind && got.number == number; }

static bool zeros(const void *bytes, size_t length) {
    for (size_t i = 0; i < length; i++)
        if (((const uint8_t *)bytes)[i]) return false;
    return true;
}

static const uint16_t ciphers[1] = {DOOR_LINK_AES128_GCM};
static const uint8_t some[56] = {7};

/* Null counts as length 0: of Init messages. */
static void init_nulls(size_t n) {
    static const uint16_t void_cipher[2] = {DOOR_LINK_AES128_GCM, 0};
    uint8_t out[128];
    const uint8_t tep = DOOR_LINK_CURVE25519;
    memset(out, 0xee, sizeof out);
    EXPECT(says(door_link_init1_write(tep, ciphers, 1, NULL, n, some, 32, out, 128), DOOR_LINK_REFUSED, DOOR_LINK_UNFIT));
    EXPECT(says(door_link_init1_write(tep, ciphers, 1, some, 32, NULL, n, out, 128), DOOR_LINK_REFUSED, DOOR_LINK_UNFIT));
    EXPECT(says(door_link_init1_write(tep, ciphers, 1, some, 32, some, 32, NULL, n), DOOR_LINK_REFUSED, DOOR_LINK_NO_ROOM));
    EXPECT(says(door_link_init1_write(tep, NULL, n, NULL, n, NULL, n, NULL, n), DOOR_LINK_REFUSED, DOOR_LINK_UNFIT));
    EXPECT(says(door_link_init2_write(tep, 1, NULL, n, some, 32, out, 128), DOOR_LINK_REFUSED, DOOR_LINK_UNFIT));
    EXPECT(says(door_link_init2_write(tep, 1, some, 32, NULL, n, out, 128), DOOR_LINK_REFUSED, DOOR_LINK_UNFIT));
    EXPECT(says(door_link_init2_write(tep, 1, some, 32, some, 32, NULL, n), DOOR_LINK_REFUSED, DOOR_LINK_NO_ROOM));
    for (size_t i = 0; i < sizeof out; i++) EXPECT(out[i] == 0xee);

    /* No ciphers: refused as an empty list is, and so is a cipher 0000. */
    EXPECT(says(door_link_init1_write(tep, NULL, n, some, 32, some, 32, out, 128), DOOR_LINK_REFUSED, DOOR_LINK_UNFIT));
    EXPECT(says(door_link_init1_write(tep, ciphers, 0, some, 32, some, 32, out, 128), DOOR_LINK_REFUSED, DOOR_LINK_UNFIT));
    EXPECT(says(door_link_init1_write(tep, void_cipher, 2, some, 32, some, 32, out, 128), DOOR_LINK_REFUSED, DOOR_LINK_UNFIT));
    EXPECT(says(door_link_init2_write(tep, 0, some, 32, some, 32, out, 128), DOOR_LINK_REFUSED, DOOR_LINK_UNFIT));
    for (size_t i = 0; i < sizeof out; i++) EXPECT(out[i] == 0xee);

    struct door_link_init_reply read = door_link_init1_read(tep, true, true, true, NULL, n);
    EXPECT(read.kind == DOOR_LINK_REFUSED && read.number == DOOR_LINK_INCOMPLETE && !read.count && !read.cipher);
    EXPECT(zeros(read.nonce, sizeof read.nonce) && zeros(read.key, sizeof read.key));
    read = door_link_init2_read(tep, ciphers, 1, NULL, n);
    EXPECT(read.kind == DOOR_LINK_REFUSED && read.number == DOOR_LINK_INCOMPLETE);
    EXPECT(says(door_link_init2_write(tep, ciphers[0], some, 32, some, 32, out, 128), DOOR_LINK_WRITTEN, 74));
    read = door_link_init2_read(tep, NULL, n, out, 74);
    EXPECT(read.kind == DOOR_LINK_REFUSED && read.number == DOOR_LINK_NO_CIPHER);
    read = door_link_init2_read(tep, ciphers, 1, out, 74);
    EXPECT(read.kind == DOOR_LINK_INIT && read.number == 74 && read.cipher == ciphers[0]);
}

/* Of frames, the finder and the judge. */
static void other_nulls(size_t n) {
    static const struct door_link_hand none;
    static const uint8_t option[4] = {0x45, 4, 1, 0x23};
    uint8_t out[8];
    EXPECT(says(door_link_header_write(false, 17, 0, NULL, n), DOOR_LINK_REFUSED, DOOR_LINK_NO_ROOM));
    EXPECT(says(door_link_header_write(false, 17, 0, out, 8), DOOR_LINK_NEXT, 20));
    struct door_link_header_reply header = door_link_header_read(NULL, n, 0);
    EXPECT(header.kind == DOOR_LINK_REFUSED && header.number == DOOR_LINK_INCOMPLETE && zeros(header.associated, 3));
    struct door_link_nonce_reply nonce = door_link_nonce(NULL, n, 75);
    EXPECT(nonce.kind == DOOR_LINK_REFUSED && nonce.number == DOOR_LINK_UNFIT && zeros(nonce.nonce, 12));
    nonce = door_link_nonce(some, 12, 75);
    EXPECT(nonce.kind == DOOR_LINK_NONCE && nonce.nonce[11] == 75);
    EXPECT(says(door_link_plaintext_write(true, false, 0, NULL, n, out, 8), DOOR_LINK_WRITTEN, 1) && out[0] == 1);
    EXPECT(says(door_link_plaintext_write(true, false, 0, some, 2, NULL, n), DOOR_LINK_REFUSED, DOOR_LINK_NO_ROOM));
    struct door_link_plaintext_reply text = door_link_plaintext_read(NULL, n);
    EXPECT(text.kind == DOOR_LINK_REFUSED && text.number == DOOR_LINK_NO_PLAINTEXT && !text.fin && !text.urg && !text.urgent);

    EXPECT(says(door_link_find_status(NULL, n, true), DOOR_LINK_NONE, 0) && says(door_link_find_status(NULL, n, false), DOOR_LINK_NONE, 0));
    EXPECT(says(door_link_find_status(door_link_ack_option, sizeof door_link_ack_option, false), DOOR_LINK_FOUND, 0));
    struct door_link_judgement judged = door_link_judge(NULL, n, option, 4, false, none);
    EXPECT(says(judged.reply, DOOR_LINK_PLAIN, DOOR_LINK_NO_OPTION) && zeros(judged.transcript, sizeof judged.transcript));
    EXPECT(says(door_link_judge(option, 4, NULL, n, false, none).reply, DOOR_LINK_PLAIN, DOOR_LINK_NO_OPTION));
    EXPECT(says(door_link_judge(NULL, n, NULL, n, false, none).reply, DOOR_LINK_PLAIN, DOOR_LINK_NO_OPTION));
    EXPECT(says(door_link_judge_plainly(NULL, n, option, 4, false, none).reply, DOOR_LINK_PLAIN, DOOR_LINK_NO_OPTION));
    EXPECT(says(door_link_judge_plainly(option, 4, NULL, n, false, none).reply, DOOR_LINK_PLAIN, DOOR_LINK_NO_OPTION));
}

/* Of a reader of pieces: no bytes, and an empty list. */
static void piece_nulls(size_t n) {
    static struct door_link_pieces reader;
    static const uint8_t init2[10] = {0x09, 0x71, 0x05, 0xe0, 0, 0, 0, 74, 0, 1};
    EXPECT(says(door_link_pieces_init2(&reader, DOOR_LINK_CURVE25519, NULL, n), DOOR_LINK_DONE, 0));
    for (int i = 0; i < 3; i++) {
        struct door_link_fed fed = door_link_pieces_feed(&reader, NULL, n);
        EXPECT(fed.kind == DOOR_LINK_WAITING && !fed.number && !fed.place && !fed.used);
        fed = door_link_pieces_feed(&reader, i == 0 ? init2 : some, i == 0 ? 10 : 32);
        if (i < 2) EXPECT(fed.kind == DOOR_LINK_WAITING && fed.used == (i == 0 ? 10 : 32));
        else EXPECT(fed.kind == DOOR_LINK_REFUSED && fed.number == DOOR_LINK_NO_CIPHER && fed.place == 73 && !fed.used);
    }
    struct door_link_fed again = door_link_pieces_feed(&reader, NULL, n);
    EXPECT(again.kind == DOOR_LINK_REFUSED && again.number == DOOR_LINK_NO_CIPHER && again.place == 73 && !again.used);
    EXPECT(says(door_link_pieces_init1(&reader, 0xa3, true, true, true), DOOR_LINK_REFUSED, DOOR_LINK_UNFIT));
    EXPECT(says(door_link_pieces_frames(&reader), DOOR_LINK_DONE, 0) && door_link_pieces_feed(&reader, NULL, n).kind == DOOR_LINK_WAITING);
}

/* The questions, over every kind with the numbers of all others: no number is taken for another kind's. */
static void questions(void) {
    static const size_t phases[5] = {DOOR_LINK_IDLE, DOOR_LINK_OFFERED, DOOR_LINK_CROSSED, DOOR_LINK_ANSWERED, DOOR_LINK_OPEN};
    for (unsigned kind = 0; kind < 256; kind++)
        for (size_t i = 0; i < 200; i++) {
            const struct door_link_reply reply = {.number = i < 5 ? phases[i] : i - 5, .kind = (uint8_t)kind};
            EXPECT(door_link_is_open(reply) == (kind == DOOR_LINK_ENCRYPTED || (kind == DOOR_LINK_NOW && reply.number == DOOR_LINK_OPEN)));
            EXPECT(door_link_is_refused(reply) == (kind == DOOR_LINK_REFUSED));
            EXPECT(door_link_reason(reply) == (kind == DOOR_LINK_PLAIN ? reply.number : 0));
            EXPECT(door_link_written(reply) == (kind == DOOR_LINK_WRITTEN ? reply.number : 0));
        }
    for (size_t i = 0; i < 5; i++) EXPECT(phases[i] == 0x1000000 + i);
}

/* The questions of a door's own replies: a passive open, asked at each step. */
static void a_door(void) {
    static struct door_link_unit unit;
    static const uint8_t tep = DOOR_LINK_CURVE25519, syn[3] = {0x45, 3, 0x23};
    uint8_t out[DOOR_LINK_TRANSCRIPT];
    door_link_unit_erase(&unit);
    struct door_link_reply reply = door_link_unit_answer(&unit, 4, syn, 3, false, false, &tep, 1, NULL, 0, out, sizeof out);
    EXPECT(door_link_written(reply) == 4 && !door_link_is_open(reply) && !door_link_is_refused(reply) && !door_link_reason(reply));
    reply = door_link_unit_receive(&unit, 4, true, false, syn, 3);
    EXPECT(says(reply, DOOR_LINK_NOW, DOOR_LINK_ANSWERED) && !door_link_is_open(reply) && !door_link_written(reply));
    reply = door_link_unit_result(&unit, 4, out, sizeof out, NULL);
    EXPECT(door_link_is_refused(reply) && reply.number == DOOR_LINK_OUT_OF_TURN && !door_link_is_open(reply));
    reply = door_link_unit_receive(&unit, 4, false, true, door_link_ack_option, sizeof door_link_ack_option);
    EXPECT(says(reply, DOOR_LINK_NOW, DOOR_LINK_OPEN) && door_link_is_open(reply));
    reply = door_link_unit_result(&unit, 4, out, sizeof out, NULL);
    EXPECT(door_link_is_open(reply) && reply.number == 7 && !door_link_written(reply));
    reply = door_link_unit_close(&unit, 4);
    EXPECT(reply.kind == DOOR_LINK_DONE && !door_link_is_open(reply) && !door_link_is_refused(reply));

    /* Both ends with the same b: reason 4, which is no phase. */
    static const uint8_t same[4] = {0x45, 4, 1, 0x23};
    reply = door_link_unit_answer(&unit, 4, same, 4, false, false, &tep, 1, NULL, 0, out, sizeof out);
    EXPECT(door_link_reason(reply) == DOOR_LINK_EQUAL_ROLES && !door_link_is_open(reply) && !door_link_written(reply) && !door_link_is_refused(reply));
    reply = door_link_unit_receive(&unit, 4, false, true, same, 4);
    EXPECT(door_link_reason(reply) == DOOR_LINK_EQUAL_ROLES && !door_link_is_open(reply));
}

/* A door answers on a copy and again on the unit itself, with the same nonce: the same bytes, and the unit is untouched before. */
static void on_a_copy(void) {
    static struct door_link_unit unit, copy, before;
    static const uint8_t tep = DOOR_LINK_CURVE25519, identifier[18] = {1}, secret[32] = {2}, nonce[8] = {3};
    uint8_t syn[12] = {0x45, 12, 0xa3}, sent[DOOR_LINK_OPTION], second[DOOR_LINK_OPTION];
    memcpy(syn + 3, identifier, 9);
    door_link_unit_erase(&unit);
    EXPECT(says(door_link_unit_store(&unit, 0, tep, 1, identifier, 18, secret, 32), DOOR_LINK_DONE, 0));
    before = copy = unit;
    const size_t length = door_link_written(door_link_unit_answer(&copy, 0, syn, 12, false, false, &tep, 1, nonce, 8, sent, 21));
    EXPECT(length == 21 && memcmp(&before, &unit, sizeof unit) == 0);
    EXPECT(says(door_link_unit_erase(&copy), DOOR_LINK_DONE, 0) && says(door_link_unit_count(&unit, 0), DOOR_LINK_HOLDS, 1));
    EXPECT(door_link_written(door_link_unit_answer(&unit, 0, syn, 12, false, false, &tep, 1, nonce, 8, second, 21)) == length);
    EXPECT(memcmp(sent, second, length) == 0);
    EXPECT(door_link_is_open(door_link_unit_receive(&unit, 0, false, true, door_link_ack_option, 2)));
    EXPECT(says(door_link_unit_count(&unit, 0), DOOR_LINK_HOLDS, 0));
}

/* Each number has a text of its own, and every other one the same. */
static void texts(void) {
    const char *none = door_link_refusal_text(0), *nothing = door_link_reason_text(0);
    for (size_t i = 1; i <= 40; i++) {
        EXPECT((strcmp(door_link_refusal_text(i), none) == 0) == (i > 16));
        EXPECT((strcmp(door_link_reason_text(i), nothing) == 0) == (i > 7));
        for (size_t k = 1; k < i; k++) {
            if (i <= 16) EXPECT(strcmp(door_link_refusal_text(i), door_link_refusal_text(k)) != 0);
            if (i <= 7) EXPECT(strcmp(door_link_reason_text(i), door_link_reason_text(k)) != 0);
        }
    }
    EXPECT(strcmp(door_link_refusal_text(DOOR_LINK_OPEN), none) == 0 && strcmp(door_link_reason_text(DOOR_LINK_OPEN), nothing) == 0);
}

/* The calls that take no pointer: each is called, so that its declaration is the library's. */
static void without_pointers(void) {
    EXPECT(says(door_link_next_offset(75, 17), DOOR_LINK_NEXT, 95) && says(door_link_next_offset(75, 16), DOOR_LINK_REFUSED, DOOR_LINK_NO_FRAME));
    EXPECT(door_link_frame_id(0x0102).bytes[10] == 1 && door_link_frame_id(0x0102).bytes[11] == 2);
    struct door_link_generations g = door_link_first_record();
    EXPECT(!door_link_is_owed(g) && door_link_send(g, false).kind == DOOR_LINK_SENT && door_link_receive_frame(g, true).number == 1);
    EXPECT(door_link_generations_initiate(&g, true, false).number == 1 && door_link_generations_receive(&g, true).number == 1);
    EXPECT(door_link_generations_send(&g, true).number == 1 && g.fin && door_link_initiate(g, true, false).number == DOOR_LINK_FINISHED);
    EXPECT(door_link_abi_6() == DOOR_LINK_ABI && door_link_unit_size() == DOOR_LINK_UNIT);
}

int main(void) {
    static const size_t lengths[] = {0, 1, 2, 3, 12, 32, 40, 41, 56, 74, 255, 256, 1000000, SIZE_MAX / 2, SIZE_MAX};
    for (size_t i = 0; i < sizeof lengths / sizeof lengths[0]; i++) {
        init_nulls(lengths[i]);
        other_nulls(lengths[i]);
        piece_nulls(lengths[i]);
    }
    questions();
    a_door();
    on_a_copy();
    texts();
    without_pointers();
    return failures ? 1 : 0;
}
