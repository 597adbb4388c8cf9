/* After the handshake, for hosts in C: Init messages, frames and generations of tcpcrypt (RFC 8548), a reader of the two messages and frames in pieces, and the judge of
 * two option areas.
 *
 * None of these calls knows a unit or a door: each answers from its arguments alone. What door_link.h says of bytes, null pointers, refusals and threads holds here
 * too. Lists of ciphers go in as a pointer and a count.
 *
 * THE HOST'S PART is all of the cryptography: public keys, key agreement, the keys of each generation, fixed nonces, ciphering and tags, and random numbers.
 * These calls lay out and read the bytes around it.
 *
 * THE TEP: door_link_unit_result gives the TEP byte as host B sent it, perhaps with v (0x80). Mask it with 0x7f before an Init call, which refuses 0xa3 with 3. */
#ifndef DOOR_LINK_MESSAGES_H
#define DOOR_LINK_MESSAGES_H

#include "door_link.h"

#ifdef __cplusplus
extern "C" {
#endif

/* Further kinds of reply, and what their `number` is. */
enum {
    DOOR_LINK_INIT = 10,      /* an Init message was read: the length of the whole message */
    DOOR_LINK_NEXT = 11,      /* the offset after the frame, where the next one begins */
    DOOR_LINK_HEADER = 12,    /* a frame's header was read: the offset after the frame */
    DOOR_LINK_NONCE = 13,     /* 0 */
    DOOR_LINK_PLAINTEXT = 14, /* a plaintext was read: where its data begin; they run to its end */
    DOOR_LINK_SENT = 15,      /* a frame is sent: its generation */
    DOOR_LINK_RECEIVED = 16,  /* a frame came: its generation */
    DOOR_LINK_WAITING = 17,   /* no item is finished: 0 */
    DOOR_LINK_BODY = 18       /* a frame's body is over: where it ends in the stream */
};

/* Further refusals. */
enum {
    DOOR_LINK_NO_INIT = 8,      /* no Init message, whatever bytes follow: give the connection up */
    DOOR_LINK_INCOMPLETE = 9,   /* bytes are missing: call again with all bytes so far and more behind them */
    DOOR_LINK_NO_CIPHER = 10,   /* a whole Init message, and no cipher of it is ours */
    DOOR_LINK_NO_FRAME = 11,    /* ciphertext below 17 or above 65,535 bytes, plaintext above 65,519 bytes, or the offset after the frame passes 2^64 - 1 */
    DOOR_LINK_NO_PLAINTEXT = 12,/* no bytes, or URGp with fewer than three */
    DOOR_LINK_PAST_LAST = 13,   /* a generation would pass 65,535 */
    DOOR_LINK_FINISHED = 14,    /* a frame with FINp was sent: none may follow */
    DOOR_LINK_UNANSWERED = 15   /* initiating without data before the other side followed the last time */
};

/* AEAD ciphers, as Init messages name them. */
enum { DOOR_LINK_AES128_GCM = 0x0001, DOOR_LINK_AES256_GCM = 0x0002, DOOR_LINK_CHACHA20_POLY1305 = 0x0010 };

enum {
    DOOR_LINK_INIT_NONCE = 32,      /* bytes of an Init message's nonce */
    DOOR_LINK_CURVE25519_KEY = 32,  /* bytes of a public key of TEP 0x23 */
    DOOR_LINK_CURVE448_KEY = 56,    /* and of TEP 0x24 */
    DOOR_LINK_TAG = 16,             /* bytes of a tag, by which a ciphertext is longer than its plaintext */
    DOOR_LINK_HEADER_BYTES = 3,     /* bytes of a frame's header */
    DOOR_LINK_FRAME_ID = 12,        /* bytes of a frame ID, of a fixed nonce and of a frame's nonce */
    DOOR_LINK_MOST_PLAINTEXT = 65519
};

/* A call that takes a pointer is an inline function here. The library's own, of the same name, takes no null pointer: it is door_link_raw_.. in C, and the inline
 * function has another name for the linker. */

/* A null list of ciphers is an empty one. */
static inline const uint16_t *door_link_ciphers(const uint16_t *ciphers) {
    static const uint16_t none[1] = {0};
    return ciphers ? ciphers : none;
}

/* ---- Init messages: TEPs 0x23 and 0x24. Those of 0x21 and 0x22 are the host's. ---- */

/* What reading an Init message gives. Beside a refusal all but kind and number are zeros. */
struct door_link_init_reply {
    size_t number;
    size_t count;    /* ciphers that the message lists; 1 for Init2 */
    uint16_t cipher; /* the cipher that both ends use from now on */
    uint8_t kind;
    uint8_t nonce[DOOR_LINK_INIT_NONCE];
    uint8_t key[DOOR_LINK_CURVE448_KEY]; /* the other side's public key, then zeros: 32 bytes of it count for TEP 0x23, 56 for 0x24 */
};

/* Writes Init1, with which host A begins a fresh key exchange.
 *   tep      0x23 or 0x24, without v
 *   ciphers  1 to 255 of them, none of them 0000, the best first; null is none, refused with 3
 *   nonce    32 bytes, fresh; null is refused with 3
 *   key      this end's public key, 32 or 56 bytes by the TEP; null is refused with 3
 *   out      lent; the message has 41 bytes, two for each cipher, and the key; null is refused with 5
 * Replies: WRITTEN. Refused: 3 for another TEP, another length of nonce or key, no cipher, more than 255 or one that is 0000; 5. */
struct door_link_reply door_link_raw_init1_write(uint8_t tep, const uint16_t *ciphers, size_t ciphers_count, const uint8_t *nonce, size_t nonce_length,
                                                 const uint8_t *key, size_t key_length, uint8_t *out, size_t out_length) __asm__("door_link_init1_write");
static inline __typeof__(door_link_raw_init1_write) door_link_init1_write __asm__("door_link_or_null_init1_write");
static inline struct door_link_reply door_link_init1_write(uint8_t tep, const uint16_t *ciphers, size_t ciphers_count, const uint8_t *nonce, size_t nonce_length,
                                                           const uint8_t *key, size_t key_length, uint8_t *out, size_t out_length) {
    uint8_t none[1];
    door_link_abi();
    return door_link_raw_init1_write(tep, door_link_ciphers(ciphers), ciphers ? ciphers_count : 0, door_link_bytes(nonce), door_link_length(nonce, nonce_length),
                                     door_link_bytes(key), door_link_length(key, key_length), out ? out : none, door_link_length(out, out_length));
}

/* Writes Init2, host B's answer: the cipher that door_link_init1_read gave, B's nonce and its public key. The message has 42 bytes and the key.
 * A null nonce or key is refused with 3, a null `out` with 5.
 * Replies: WRITTEN. Refused: 3 for another TEP, another length of nonce or key, or cipher 0000; 5. */
struct door_link_reply door_link_raw_init2_write(uint8_t tep, uint16_t cipher, const uint8_t *nonce, size_t nonce_length, const uint8_t *key, size_t key_length,
                                                 uint8_t *out, size_t out_length) __asm__("door_link_init2_write");
static inline __typeof__(door_link_raw_init2_write) door_link_init2_write __asm__("door_link_or_null_init2_write");
static inline struct door_link_reply door_link_init2_write(uint8_t tep, uint16_t cipher, const uint8_t *nonce, size_t nonce_length, const uint8_t *key,
                                                           size_t key_length, uint8_t *out, size_t out_length) {
    uint8_t none[1];
    door_link_abi();
    return door_link_raw_init2_write(tep, cipher, door_link_bytes(nonce), door_link_length(nonce, nonce_length), door_link_bytes(key),
                                     door_link_length(key, key_length), out ? out : none, door_link_length(out, out_length));
}

/* Reads Init1 at host B from the bytes that have come so far, and takes the first of its ciphers that is enabled here. Bytes behind the message are not read; they
 * belong to the first frame, which begins at `number`. Null is no bytes: refused with 9. A message lists 1 to 255 ciphers, none of them 0000: else it is refused with 8
 * as soon as the count, or both bytes of that cipher, have come.
 * Replies: INIT. Refused: 3 for another TEP; 8; 9; 10. */
struct door_link_init_reply door_link_raw_init1_read(uint8_t tep, bool aes128, bool aes256, bool chacha20, const uint8_t *bytes,
                                                     size_t bytes_length) __asm__("door_link_init1_read");
static inline __typeof__(door_link_raw_init1_read) door_link_init1_read __asm__("door_link_or_null_init1_read");
static inline struct door_link_init_reply door_link_init1_read(uint8_t tep, bool aes128, bool aes256, bool chacha20, const uint8_t *bytes, size_t bytes_length) {
    door_link_abi();
    return door_link_raw_init1_read(tep, aes128, aes256, chacha20, door_link_bytes(bytes), door_link_length(bytes, bytes_length));
}

/* Reads Init2 at host A, whose own Init1 offered the ciphers `own`. Bytes behind the message are not read. Null bytes are none, refused with 9; a null list is empty,
 * so that a whole message is refused with 10. An Init2 with cipher 0000 is refused with 8, whatever `own` is.
 * Replies: INIT. Refused: 3 for another TEP or more than 255 ciphers; 8; 9; 10 where the cipher is none of them. */
struct door_link_init_reply door_link_raw_init2_read(uint8_t tep, const uint16_t *own, size_t own_count, const uint8_t *bytes,
                                                     size_t bytes_length) __asm__("door_link_init2_read");
static inline __typeof__(door_link_raw_init2_read) door_link_init2_read __asm__("door_link_or_null_init2_read");
static inline struct door_link_init_reply door_link_init2_read(uint8_t tep, const uint16_t *own, size_t own_count, const uint8_t *bytes, size_t bytes_length) {
    door_link_abi();
    return door_link_raw_init2_read(tep, door_link_ciphers(own), own ? own_count : 0, door_link_bytes(bytes), door_link_length(bytes, bytes_length));
}

/* ---- Frames. An offset is a place in one direction's stream of bytes: the first frame begins behind that direction's Init message, or at 0 where a session is
 * resumed and there is none; each further one where NEXT or HEADER says. ---- */

/* What reading a header gives. Beside a refusal all but kind and number are zeros. */
struct door_link_header_reply {
    size_t number;
    uint16_t clen; /* bytes of the ciphertext behind the header, with its tag: 17 to 65,535 */
    uint8_t kind;
    uint8_t rekey;                              /* 1 where the frame is the first of a generation, else 0: for door_link_receive_frame */
    uint8_t associated[DOOR_LINK_HEADER_BYTES]; /* the associated data: the header as received, reserved bits too */
};

struct door_link_id {
    uint8_t bytes[DOOR_LINK_FRAME_ID];
};

struct door_link_nonce_reply {
    size_t number;
    uint8_t kind;
    uint8_t nonce[DOOR_LINK_FRAME_ID]; /* zeros beside a refusal */
};

/* What reading a plaintext gives. What is not there is 0. */
struct door_link_plaintext_reply {
    size_t number;
    uint16_t urgent; /* 0 without URGp */
    uint8_t kind;
    uint8_t fin; /* FINp: 1 in the last frame of this direction, else 0 */
    uint8_t urg; /* URGp: 1 or 0 */
};

/* The offset after a frame that begins at an offset and has clen bytes of ciphertext.
 * Replies: NEXT. Refused: 11. */
struct door_link_reply door_link_next_offset(uint64_t offset, size_t clen);

/* Writes a frame's header, three bytes, which are also the frame's associated data.
 *   rekey   as door_link_send or door_link_initiate gave it
 *   clen    bytes of the ciphertext: the plaintext and 16 for the tag
 *   offset  where the frame begins
 *   out     lent; null is refused with 5
 * Replies: NEXT. Refused: 5; 11. */
struct door_link_reply door_link_raw_header_write(bool rekey, size_t clen, uint64_t offset, uint8_t *out, size_t out_length) __asm__("door_link_header_write");
static inline __typeof__(door_link_raw_header_write) door_link_header_write __asm__("door_link_or_null_header_write");
static inline struct door_link_reply door_link_header_write(bool rekey, size_t clen, uint64_t offset, uint8_t *out, size_t out_length) {
    uint8_t none[1];
    door_link_abi();
    return door_link_raw_header_write(rekey, clen, offset, out ? out : none, door_link_length(out, out_length));
}

/* Reads the header of a frame that begins at an offset: three bytes, and whatever follows them. Null is no bytes: refused with 9.
 * Replies: HEADER. Refused: 9; 11, which ends the connection. */
struct door_link_header_reply door_link_raw_header_read(const uint8_t *bytes, size_t bytes_length, uint64_t offset) __asm__("door_link_header_read");
static inline __typeof__(door_link_raw_header_read) door_link_header_read __asm__("door_link_or_null_header_read");
static inline struct door_link_header_reply door_link_header_read(const uint8_t *bytes, size_t bytes_length, uint64_t offset) {
    door_link_abi();
    return door_link_raw_header_read(door_link_bytes(bytes), door_link_length(bytes, bytes_length), offset);
}

/* The frame ID of a frame that begins at an offset. Never refused.
 * It begins with 44 41 54 41, where RFC 8548 has four zero bytes: a peer that follows the RFC computes other nonces (docs/DECISIONS.md, entry 1). */
struct door_link_id door_link_frame_id(uint64_t offset);

/* The nonce of a frame that begins at an offset: its frame ID XOR the fixed nonce of the generation and the direction, 12 bytes.
 * Replies: NONCE. Refused: 3 for another length, and for null. */
struct door_link_nonce_reply door_link_raw_nonce(const uint8_t *fixed, size_t fixed_length, uint64_t offset) __asm__("door_link_nonce");
static inline __typeof__(door_link_raw_nonce) door_link_nonce __asm__("door_link_or_null_nonce");
static inline struct door_link_nonce_reply door_link_nonce(const uint8_t *fixed, size_t fixed_length, uint64_t offset) {
    door_link_abi();
    return door_link_raw_nonce(door_link_bytes(fixed), door_link_length(fixed, fixed_length), offset);
}

/* Writes a frame's plaintext, which the host then ciphers: flags, the urgent field where urg is set, and the payload, perhaps of no bytes.
 *   fin     the last frame of this direction: the same as for door_link_send or door_link_initiate
 *   payload  null is no bytes
 *   out     lent; as long as the payload and three bytes is always enough; null is refused with 5
 * Replies: WRITTEN. Refused: 5; 11 above 65,519 bytes in all. */
struct door_link_reply door_link_raw_plaintext_write(bool fin, bool urg, uint16_t urgent, const uint8_t *payload, size_t payload_length, uint8_t *out,
                                                     size_t out_length) __asm__("door_link_plaintext_write");
static inline __typeof__(door_link_raw_plaintext_write) door_link_plaintext_write __asm__("door_link_or_null_plaintext_write");
static inline struct door_link_reply door_link_plaintext_write(bool fin, bool urg, uint16_t urgent, const uint8_t *payload, size_t payload_length, uint8_t *out,
                                                               size_t out_length) {
    uint8_t none[1];
    door_link_abi();
    return door_link_raw_plaintext_write(fin, urg, urgent, door_link_bytes(payload), door_link_length(payload, payload_length), out ? out : none,
                                         door_link_length(out, out_length));
}

/* Reads a plaintext whose tag was good. Null is no bytes: refused with 12.
 * Replies: PLAINTEXT. Refused: 12, which ends the connection. */
struct door_link_plaintext_reply door_link_raw_plaintext_read(const uint8_t *bytes, size_t bytes_length) __asm__("door_link_plaintext_read");
static inline __typeof__(door_link_raw_plaintext_read) door_link_plaintext_read __asm__("door_link_or_null_plaintext_read");
static inline struct door_link_plaintext_reply door_link_plaintext_read(const uint8_t *bytes, size_t bytes_length) {
    door_link_abi();
    return door_link_raw_plaintext_read(door_link_bytes(bytes), door_link_length(bytes, bytes_length));
}

/* ---- Messages in pieces: one direction's stream as its bytes come, an Init message and then frames, cut anywhere. ---- */

enum {
    DOOR_LINK_NUMBERS = 4,     /* numbers of a reader */
    DOOR_LINK_GATHERED = 4608  /* bytes in which it gathers an Init message */
};

/* A reader of one direction's stream, which the host keeps beside the connection. Begin with one of the three starts: door_link_pieces_init1 at host B,
 * door_link_pieces_init2 at host A, door_link_pieces_frames where a session is resumed and there is no Init message; zeros read frames. Then hand over the bytes as
 * they come: any pieces, of no bytes too. However the stream is cut, the items, the refusal with its position, and the reader in the end are the same.
 *
 *     for (size_t at = 0; at < length; at += fed.used) {
 *         fed = door_link_pieces_feed(&reader, piece + at, length - at);
 *         if (fed.kind == DOOR_LINK_REFUSED) abort_connection();
 *         if (fed.kind == DOOR_LINK_WAITING) break;
 *         ..                                           // an item: INIT, HEADER or BODY
 *     }
 *
 * Bodies are not kept: a body is told as a range of the stream, whose bytes the host has. Where INIT is told, the message as received stands in `gathered` from place
 * 0 on, `number` bytes of it, until the next start; the 32 bytes of its nonce begin at `place`, and behind them the key. Any values are a reader: every call is defined
 * for all of them. */
struct door_link_pieces {
    uint64_t numbers[DOOR_LINK_NUMBERS];  /* the library's */
    uint8_t gathered[DOOR_LINK_GATHERED]; /* looked at and written while an Init message is read, and at no other time */
};

/* What a reader says. What a kind does not have is 0. Positions, ranges and offsets count the stream's bytes from 0 at the start. */
struct door_link_fed {
    uint64_t number; /* INIT: the length of the message; HEADER: the offset after the frame; BODY: where it ends; or the refusal's number */
    uint64_t place;  /* INIT: where its nonce begins in `gathered`; BODY: where it begins in the stream; or the byte that settled the refusal */
    size_t used;     /* bytes of the piece that were taken: all where it waits, up to the item's last one, 0 beside a refusal. Give the rest again. */
    size_t count;    /* INIT: ciphers that the message lists; 1 for Init2 */
    uint16_t cipher; /* INIT: the cipher that both ends use from now on */
    uint16_t clen;   /* HEADER: bytes of the ciphertext behind the header, with its tag */
    uint8_t kind;
    uint8_t rekey;                              /* HEADER: 1 where the frame is the first of a generation */
    uint8_t associated[DOOR_LINK_HEADER_BYTES]; /* HEADER: the header as received */
};

/* The library's own, over the two arrays and their lengths, and without null: a host that reads frames alone may keep four numbers, and lend `gathered` with length 0.
 * Shorter arrays are refused with 5: numbers below four, `gathered` below 4,608 for door_link_start_init2 and while an Init message is read. */
struct door_link_reply door_link_start_init1(uint8_t tep, bool aes128, bool aes256, bool chacha20, uint64_t *numbers, size_t numbers_count);
struct door_link_reply door_link_start_init2(uint8_t tep, const uint16_t *own, size_t own_count, uint64_t *numbers, size_t numbers_count, uint8_t *gathered,
                                             size_t gathered_length);
struct door_link_reply door_link_start_frames(uint64_t *numbers, size_t numbers_count);
struct door_link_fed door_link_feed(uint64_t *numbers, size_t numbers_count, uint8_t *gathered, size_t gathered_length, const uint8_t *piece, size_t piece_length);

/* Starts anew: host B's reader, of Init1 and the frames behind it, with the ciphers that are enabled. Beside a refusal the reader stays as it was, one that has refused too.
 * Replies: DONE. Refused: 3 for another TEP than 0x23 and 0x24, without v. */
static inline struct door_link_reply door_link_pieces_init1(struct door_link_pieces *reader, uint8_t tep, bool aes128, bool aes256, bool chacha20) {
    door_link_abi();
    return door_link_start_init1(tep, aes128, aes256, chacha20, reader->numbers, DOOR_LINK_NUMBERS);
}

/* The same for host A, whose own Init1 offered the ciphers `own`: of Init2 and the frames behind it. A null list is empty.
 * Replies: DONE. Refused: 3 for another TEP or more than 255 ciphers. */
static inline struct door_link_reply door_link_pieces_init2(struct door_link_pieces *reader, uint8_t tep, const uint16_t *own, size_t own_count) {
    door_link_abi();
    return door_link_start_init2(tep, door_link_ciphers(own), own ? own_count : 0, reader->numbers, DOOR_LINK_NUMBERS, reader->gathered, DOOR_LINK_GATHERED);
}

/* The same for a stream without an Init message: frames from 0 on. Never refused.
 * Replies: DONE. */
static inline struct door_link_reply door_link_pieces_frames(struct door_link_pieces *reader) {
    door_link_abi();
    return door_link_start_frames(reader->numbers, DOOR_LINK_NUMBERS);
}

/* Takes bytes up to the last byte of the first item that they finish. Null is no bytes.
 * Replies: INIT, HEADER, BODY; WAITING. Refused: 8 at the first byte after which no continuation is an Init message; 10 at an Init message's last byte; 11 at the first
 * byte after which no header avoids it. A refusal is given again, with its position, by every later call until the reader is started anew. */
static inline struct door_link_fed door_link_pieces_feed(struct door_link_pieces *reader, const uint8_t *piece, size_t piece_length) {
    door_link_abi();
    return door_link_feed(reader->numbers, DOOR_LINK_NUMBERS, reader->gathered, DOOR_LINK_GATHERED, door_link_bytes(piece), door_link_length(piece, piece_length));
}

/* ---- Generations: rekeying. Each connection has one record, which the host keeps beside it. ---- */

/* The generation record of a connection. Begin with door_link_first_record and change it by the calls alone; `fin` is C's bool, 0 or 1. */
struct door_link_generations {
    uint16_t local;  /* how often this end has gone on to new keys, or owes it; after FINp it only follows `remote` */
    uint16_t remote; /* generation of the other side's frames */
    uint16_t last;   /* generation of the frame that was sent last */
    bool fin;        /* a frame with FINp was sent */
};

/* What a step gives back. */
struct door_link_generation_step {
    struct door_link_generations next; /* the record afterwards; as it was beside a refusal */
    uint16_t number;
    uint8_t kind;
    uint8_t rekey; /* SENT: 1 where the frame carries rekey, else 0; for door_link_header_write */
};

/* The record of a new connection, fresh or resumed: generation 0. */
struct door_link_generations door_link_first_record(void);

/* Whether a frame with rekey is owed: then send one soon, with data or without. After FINp nothing is owed, though `local` still follows. */
bool door_link_is_owed(struct door_link_generations g);

/* A frame is to be sent, with FINp or without: `number` is the generation whose keys cipher it. Pays what is owed.
 * Replies: SENT. Refused: 14. */
struct door_link_generation_step door_link_send(struct door_link_generations g, bool fin);

/* This end goes on to new keys: the same as door_link_send, for a frame of the next generation.
 *   has_data  whether the frame carries data
 * Replies: SENT. Refused: 4 while a rekey frame is owed, so never after FINp; 13; 14; 15. */
struct door_link_generation_step door_link_initiate(struct door_link_generations g, bool has_data, bool fin);

/* A frame came, with rekey or without, as its header says: `number` is the generation whose keys open it. Keep the later record once the tag was good, and the
 * one before where it was not.
 * Replies: RECEIVED. Refused: 13. */
struct door_link_generation_step door_link_receive_frame(struct door_link_generations g, bool rekey);

/* The same steps with the record behind a pointer: *g is the record before, and the record afterwards when the call returns. `g` is not null. A received frame's step
 * counts only once the tag was good: take door_link_receive_frame and keep its record then, or door_link_generations_receive where the tag is known already. */

static inline struct door_link_generation_step door_link_generations_send(struct door_link_generations *g, bool fin) {
    door_link_abi();
    struct door_link_generation_step step = door_link_send(*g, fin);
    *g = step.next;
    return step;
}

static inline struct door_link_generation_step door_link_generations_initiate(struct door_link_generations *g, bool has_data, bool fin) {
    door_link_abi();
    struct door_link_generation_step step = door_link_initiate(*g, has_data, fin);
    *g = step.next;
    return step;
}

static inline struct door_link_generation_step door_link_generations_receive(struct door_link_generations *g, bool rekey) {
    door_link_abi();
    struct door_link_generation_step step = door_link_receive_frame(*g, rekey);
    *g = step.next;
    return step;
}

/* ---- The two judges: for captures, diagnosis and benchmarks. A door's calls use the first inside. ---- */

/* A session record, as door_link_unit_store takes it. */
struct door_link_session {
    uint8_t tep;
    uint8_t role; /* this end's in the connection that made the session: 0 host A, else host B */
    uint8_t identifier[DOOR_LINK_IDENTIFIER];
    uint8_t secret[DOOR_LINK_SECRET]; /* the judge does not look at it */
};

/* The record that this end proposed to resume, if any: where `held` is false, `session` is not looked at, and may be zeros. */
struct door_link_hand {
    bool held;
    struct door_link_session session;
};

struct door_link_judgement {
    struct door_link_reply reply;               /* as door_link_unit_result's */
    uint8_t transcript[DOOR_LINK_TRANSCRIPT];   /* host A's option, then host B's; zeros behind them, and where there is no transcript */
};

/* What two option areas of SYN segments come to, this end's own and the other side's, each 0 to 40 bytes; null is an empty
 * area, which gives reason 2.
 * Replies: ENCRYPTED; PLAIN with reason 1 to 6. Where both areas are unreadable, place and option are those of the own area. Refused: 2. */
struct door_link_judgement door_link_raw_judge(const uint8_t *own_area, size_t own_length, const uint8_t *peer_area, size_t peer_length, bool mandatory,
                                               struct door_link_hand hand) __asm__("door_link_judge");
static inline __typeof__(door_link_raw_judge) door_link_judge __asm__("door_link_or_null_judge");
static inline struct door_link_judgement door_link_judge(const uint8_t *own_area, size_t own_length, const uint8_t *peer_area, size_t peer_length, bool mandatory,
                                                         struct door_link_hand hand) {
    door_link_abi();
    return door_link_raw_judge(door_link_bytes(own_area), door_link_length(own_area, own_length), door_link_bytes(peer_area),
                               door_link_length(peer_area, peer_length), mandatory, hand);
}

/* The same by the plain judge, which lists all suboptions, strikes the ones not valid and takes the last; slower. That both say the same of every two areas
 * is proved. */
struct door_link_judgement door_link_raw_judge_plainly(const uint8_t *own_area, size_t own_length, const uint8_t *peer_area, size_t peer_length, bool mandatory,
                                                       struct door_link_hand hand) __asm__("door_link_judge_plainly");
static inline __typeof__(door_link_raw_judge_plainly) door_link_judge_plainly __asm__("door_link_or_null_judge_plainly");
static inline struct door_link_judgement door_link_judge_plainly(const uint8_t *own_area, size_t own_length, const uint8_t *peer_area, size_t peer_length,
                                                                 bool mandatory, struct door_link_hand hand) {
    door_link_abi();
    return door_link_raw_judge_plainly(door_link_bytes(own_area), door_link_length(own_area, own_length), door_link_bytes(peer_area),
                                       door_link_length(peer_area, peer_length), mandatory, hand);
}

#ifdef __cplusplus
}
#endif

#endif
