/* The link unit for hosts in C: TCP-ENO options (RFC 8547), resumption of tcpcrypt sessions (RFC 8548), all doors of a platform, one pool of session records. What comes
 * after the handshake, Init messages, frames, a reader of both in pieces, and generations, is in door_link_messages.h, which this header includes.
 *
 * Link with libdoor_link.a, which `tools/host-library` writes to target/staticlib and `tools/install PREFIX` puts in place with these headers, a pkg-config file and a
 * CMake config. It is for x86-64 with the System V calling convention, and for user space alone: it uses the red zone and SSE registers, so neither a kernel nor an
 * interrupt handler calls it. It takes memcpy and memset from the host's C library, or from the host itself where there is none.
 *
 * THE UNIT is memory that the host owns, a `struct door_link_unit` anywhere it likes, and lends to each call, which changes it in place. There is no heap, no
 * global, no lock and no thread in the library: it keeps nothing between two calls, no pointer either. door_link_unit_erase makes the empty unit of whatever
 * bytes the memory has, so a unit begins with it:
 *
 *     static struct door_link_unit unit;
 *     door_link_unit_erase(&unit);
 *
 * Any bytes are a unit: every call is defined for all of them, and for bytes of the host's own making it still changes no byte of another door. A flag is a byte,
 * 0 not set, anything else set. The calls alone make a unit that means something. Two threads must not use one unit at the same time.
 *
 * SECRETS. A unit holds them: do not write it to a log, never keep it in non-volatile memory, and erase it when it is no longer needed, since the library does not
 * know when that is. A record that is dropped, forgotten or erased is zeros in the unit afterwards. A call leaves no other door's secret on the stack; of its own
 * door's records it may leave copies there, which door_link_wipe_stack overwrites. A call needs less than 4 KB of stack, DOOR_LINK_STACK, which hosts/c/stack.c measures.
 *
 * COPIES of a unit are the host's: it may move a unit between two calls, and has to overwrite what it leaves behind. Go on from the latest unit alone: an older
 * copy still holds the session records that were used since, and would propose them again, which RFC 8548, section 3.5, forbids.
 *
 * BYTES go in as a pointer and a length. The library reads input bytes and writes lent buffers during the call alone. All `length` bytes are readable, and those
 * of a lent buffer writable; a lent buffer overlaps neither an input nor the unit, and no input lies in the unit. A null pointer counts as length 0, whatever
 * length stands beside it; what that comes to is said at each call. The library's own calls, `door_link_..` over three arrays and `door_link_raw_..`, take no null
 * pointer, also where the length is 0: call the functions behind them.
 *
 * A REFUSAL (kind 0) leaves everything as found: not one byte of the unit and not one byte of the lent buffer is written. Where several numbers apply, the
 * lowest is given. Beyond the bytes that a call reports as written, a lent buffer stays as it was.
 *
 * Every bool, number, length and byte is allowed in every argument, and every call ends in one of the replies that are listed at it.
 *
 * A HOST THAT DEMANDS ENCRYPTION aborts the connection where a reply is PLAIN. No reason for plain TCP says that the other side has no encryption: whoever may alter
 * segments on the way can bring about each of them.
 *
 * OVER A REAL TCP STACK. The unit looks at flags and options alone. What follows is the host's to see to; a host that leaves it out can be talked out of encryption
 * by one spoofed segment.
 *   - Hand over only segments that TCP accepts for the door's connection: the addresses and ports, and the sequence and acknowledgement numbers. That goes for
 *     door_link_unit_receive, and for an RST before door_link_unit_close.
 *   - A SYN may be spoofed, and an answer takes the door and perhaps a session record. Answer it on a copy of the unit, send that option, forget the copy, and answer
 *     again on the unit itself, with the same arguments and the same nonce, once the ACK shows that the other side is there:
 *
 *         static struct door_link_unit copy;
 *         copy = unit;                                                  // at the SYN
 *         reply = door_link_unit_answer(&copy, door, syn, syn_length, false, false, teps, 2, nonce, 8, option, room);
 *         door_link_unit_erase(&copy);
 *         if (door_link_written(reply)) ..                              // send the SYN+ACK with these bytes; keep them, `syn`, `nonce` and `room`
 *
 *         again = door_link_unit_answer(&unit, door, syn, syn_length, false, false, teps, 2, nonce, 8, second, room);   // at the ACK
 *         if (door_link_written(again) != sent_length || memcmp(second, sent, sent_length)) abort_connection();         // a record was taken meanwhile
 *         else reply = door_link_unit_receive(&unit, door, false, true, ack, ack_length);
 *
 *     Such a copy is the one that may be made of a unit and thrown away: nothing goes on from it.
 *   - Keep the bytes that were written until the connection is over. A stack may send its SYN+ACK once more after the ACK was handed over, when door_link_unit_resend
 *     is out of turn.
 *   - Beside the options of Linux (MSS, SACK, timestamps, window scale) 21 bytes are left in a SYN. Lend just the room that there is: refusal 5 leaves the session
 *     record in place. Then shorten the list of TEPs, not the nonce. Drop no option from a SYN+ACK that the SYN asked for.
 *   - door_link_ack_option takes two bytes of each segment that carries it, four with padding: lower the MSS by 4.
 *   - Giving up ENO between two SYNs of one connection, since the first was lost, is door_link_unit_close; the second SYN then has no ENO option.
 *   - The two ends can come to different ends: an ACK's option stripped on the way leaves one Open and the other Plain, and an altered TEP byte leaves both Open with
 *     different transcripts. That shows only at the Init messages or at the first tag: abort the connection then, and never go on plain. */
#ifndef DOOR_LINK_H
#define DOOR_LINK_H

#include <stdbool.h>
#include <stddef.h>
#include <stdint.h>

#if !defined(__x86_64__) || defined(__ILP32__) || defined(_WIN32) || defined(__CYGWIN__)
#error "libdoor_link.a is for x86-64 with the System V calling convention"
#endif
#ifdef __KERNEL__
#error "libdoor_link.a is for user space: it uses the red zone and SSE registers"
#endif
#ifndef __GNUC__
#error "door_link.h is for compilers that take the assembler as gcc and clang do"
#endif

#ifdef __cplusplus
extern "C" {
#endif

/* The number of this header. Each change of a struct, of an export or of a number raises it, and the library exports one name that carries its own,
 * door_link_abi_6. The inline functions refer to the name with the header's number, so a program that was compiled with another header does not link. */
#define DOOR_LINK_ABI 6

enum {
    DOOR_LINK_DOORS = 48,       /* doors are 0 to DOOR_LINK_DOORS - 1 */
    DOOR_LINK_RECORDS = 4,      /* session records that a door may hold */
    DOOR_LINK_ROWS = 192,       /* rows of the pool, one for each record that may be held */
    DOOR_LINK_ROW_BYTES = 52,   /* bytes of a row */
    DOOR_LINK_DOOR_BYTES = 148, /* bytes of a door */
    DOOR_LINK_OPTION = 40,      /* a buffer of this length is long enough for any option */
    DOOR_LINK_TRANSCRIPT = 80,  /* and one of this length for any transcript */
    DOOR_LINK_IDENTIFIER = 18,  /* bytes of a session's identifier */
    DOOR_LINK_SECRET = 32,      /* bytes of a session's secret */
    DOOR_LINK_NONCE_BYTES = 8   /* bytes of a resumption's nonce, as it should be */
};

/* Words of marks, one bit for each row; and bytes of a unit. */
enum {
    DOOR_LINK_WORDS = DOOR_LINK_ROWS / 32,
    DOOR_LINK_UNIT = 4 * DOOR_LINK_WORDS + DOOR_LINK_ROWS * DOOR_LINK_ROW_BYTES + DOOR_LINK_DOORS * DOOR_LINK_DOOR_BYTES
};

/* Bytes of stack that a call takes at most; hosts/c/stack.c measures it. */
#define DOOR_LINK_STACK 4096

/* The TEPs (encryption protocols) that the unit knows, without the bit v (0x80). */
enum { DOOR_LINK_P256 = 0x21, DOOR_LINK_P521 = 0x22, DOOR_LINK_CURVE25519 = 0x23, DOOR_LINK_CURVE448 = 0x24 };

/* The ENO option of a segment without SYN. In either role this end puts it into every segment without SYN that it sends, until the door is Plain or this end has
 * received a segment without SYN (RFC 8547, 4.6); an end in Plain sends none. */
static const uint8_t door_link_ack_option[2] = {0x45, 0x02};

/* What a reply says: `kind`, and what its `number` is. The number means nothing before the kind is known: ask door_link_is_open and its neighbours below. */
enum {
    DOOR_LINK_REFUSED = 0,    /* the refusal's number, below */
    DOOR_LINK_WRITTEN = 1,    /* bytes written to the lent buffer, from its start */
    DOOR_LINK_PLAIN = 2,      /* plain TCP: the reason, below; of an unreadable area place and option are given too */
    DOOR_LINK_NOW = 3,        /* the phase that the door is in now, below */
    DOOR_LINK_ENCRYPTED = 4,  /* bytes of the transcript; role, tep and resumed are given too */
    DOOR_LINK_DONE = 5,       /* 0 */
    DOOR_LINK_HOLDS = 6,      /* session records that the door holds */
    DOOR_LINK_FOUND = 7,      /* door_link_find_status: 0 */
    DOOR_LINK_NONE = 8,       /* door_link_find_status: 0 */
    DOOR_LINK_BROKEN = 9      /* door_link_find_status: 0; place and option are given too */
    /* 10 to 18: door_link_messages.h */
};

/* Refusals. */
enum {
    DOOR_LINK_NO_DOOR = 1,        /* no door has this number */
    DOOR_LINK_AREA_TOO_LONG = 2,  /* option area above 40 bytes */
    DOOR_LINK_UNFIT = 3,          /* an argument that does not fit: see each call */
    DOOR_LINK_OUT_OF_TURN = 4,    /* not in this phase; not while a rekey frame is owed (before FINp) */
    DOOR_LINK_NO_ROOM = 5,        /* lent buffer shorter than what is to be written */
    DOOR_LINK_FULL = 6,           /* the door holds four session records */
    DOOR_LINK_ALREADY_HELD = 7,   /* the door holds, or has in hand, a record of this TEP and identifier */
    /* 8 to 15: door_link_messages.h */
    DOOR_LINK_NOT_HELD = 16       /* the door holds no record of this TEP and identifier */
};

/* Phases of a door, as replies tell them: numbers that no refusal, no reason, no count and no length of a reply has. In the sixth, Plain, a reply is PLAIN with its
 * reason. */
enum {
    DOOR_LINK_IDLE = 0x1000000,
    DOOR_LINK_OFFERED = 0x1000001,
    DOOR_LINK_CROSSED = 0x1000002,
    DOOR_LINK_ANSWERED = 0x1000003,
    DOOR_LINK_OPEN = 0x1000004
};

/* Reasons for plain TCP. None is a refusal: the connection goes on without encryption. */
enum {
    DOOR_LINK_UNREADABLE = 1,   /* unreadable option area: its place and option say where */
    DOOR_LINK_NO_OPTION = 2,    /* no ENO option */
    DOOR_LINK_ILL_FORMED = 3,   /* ill-formed ENO option */
    DOOR_LINK_EQUAL_ROLES = 4,  /* both sides sent the same b */
    DOOR_LINK_NOT_AWARE = 5,    /* mandatory-aware, and the other side's a is 0 */
    DOOR_LINK_NO_TEP = 6,       /* no valid TEP */
    DOOR_LINK_ALTERED = 7       /* the option of a second SYN is another one */
};

/* All doors and the pool. The bytes are the library's. */
struct door_link_unit {
    uint32_t marks[DOOR_LINK_WORDS];
    uint8_t rows[DOOR_LINK_ROWS][DOOR_LINK_ROW_BYTES];
    uint8_t doors[DOOR_LINK_DOORS][DOOR_LINK_DOOR_BYTES];
};

/* A reply in plain numbers. What a kind of reply does not have is 0. */
struct door_link_reply {
    size_t number; /* means nothing before `kind` */
    uint8_t kind;
    uint8_t role;    /* encrypted: this end's role in this connection, 0 host A, 1 host B */
    uint8_t tep;     /* encrypted: the TEP byte as host B sent it, with v: mask with 0x7f to name the TEP */
    uint8_t resumed; /* encrypted: 1 where a session is resumed, 0 where keys are agreed afresh */
    uint8_t place;   /* BROKEN, and PLAIN with reason 1: where the option begins that makes the area unreadable, 0 to 39 from the area's start; */
    uint8_t option;  /* and its kind byte, 2 to 255. Its length byte is absent, below 2, or beyond the area's end. */
};

/* What door_link_result gives back. */
struct door_link_result_reply {
    struct door_link_reply reply;
    uint8_t secret[DOOR_LINK_SECRET]; /* zeros unless a session is resumed */
};

/* ---- What a reply says. ---- */

/* Whether this connection is to be encrypted: true of ENCRYPTED, and of NOW with Open, and of nothing else. */
static inline bool door_link_is_open(struct door_link_reply reply) {
    return reply.kind == DOOR_LINK_ENCRYPTED || (reply.kind == DOOR_LINK_NOW && reply.number == DOOR_LINK_OPEN);
}

/* Whether the call was refused; door_link_refusal_text(reply.number) then says why. */
static inline bool door_link_is_refused(struct door_link_reply reply) { return reply.kind == DOOR_LINK_REFUSED; }

/* The reason for plain TCP, 1 to 7; 0 where the reply is not PLAIN. */
static inline size_t door_link_reason(struct door_link_reply reply) { return reply.kind == DOOR_LINK_PLAIN ? reply.number : 0; }

/* How many bytes were written to the lent buffer; 0 where the reply is not WRITTEN. (The transcript's length is the number of ENCRYPTED.) */
static inline size_t door_link_written(struct door_link_reply reply) { return reply.kind == DOOR_LINK_WRITTEN ? reply.number : 0; }

/* A refusal in words, for logs. */
static inline const char *door_link_refusal_text(size_t number) {
    switch (number) {
    case 1: return "there is no such door";
    case 2: return "the option area is above 40 bytes";
    case 3: return "an argument does not fit";
    case 4: return "out of turn";
    case 5: return "the lent buffer is too short";
    case 6: return "the door holds four session records";
    case 7: return "the door has this session record already";
    case 8: return "no Init message begins so";
    case 9: return "more bytes are needed";
    case 10: return "there is no common cipher";
    case 11: return "a length or an offset that no frame has";
    case 12: return "the plaintext is too short";
    case 13: return "the generations are used up";
    case 14: return "FINp was sent";
    case 15: return "a generation is begun with data, or once the other end has followed";
    case 16: return "the door does not hold this session record";
    default: return "no refusal has this number";
    }
}

/* A reason for plain TCP in words, for logs. */
static inline const char *door_link_reason_text(size_t number) {
    switch (number) {
    case DOOR_LINK_UNREADABLE: return "unreadable option area";
    case DOOR_LINK_NO_OPTION: return "no ENO option";
    case DOOR_LINK_ILL_FORMED: return "ill-formed ENO option";
    case DOOR_LINK_EQUAL_ROLES: return "both sides sent the same b";
    case DOOR_LINK_NOT_AWARE: return "the other side is not aware";
    case DOOR_LINK_NO_TEP: return "no valid TEP";
    case DOOR_LINK_ALTERED: return "the option was altered";
    default: return "no reason has this number";
    }
}

/* ---- The library's calls. A host calls the functions behind them, which hand on the arrays of a unit and take null. An array that is const here is not changed by
 * the call. ---- */

struct door_link_reply door_link_raw_find_status(const uint8_t *area, size_t area_length, bool syn) __asm__("door_link_find_status");

struct door_link_reply door_link_erase(uint32_t *marks, uint8_t (*rows)[DOOR_LINK_ROW_BYTES], uint8_t (*doors)[DOOR_LINK_DOOR_BYTES]);

struct door_link_reply door_link_offer(uint32_t *marks, uint8_t (*rows)[DOOR_LINK_ROW_BYTES], uint8_t (*doors)[DOOR_LINK_DOOR_BYTES], size_t door, uint8_t b,
                                       bool aware, bool mandatory, const uint8_t *teps, size_t teps_length, bool resume, const uint8_t *nonce,
                                       size_t nonce_length, uint8_t *out, size_t out_length);

struct door_link_reply door_link_answer(uint32_t *marks, uint8_t (*rows)[DOOR_LINK_ROW_BYTES], uint8_t (*doors)[DOOR_LINK_DOOR_BYTES], size_t door,
                                        const uint8_t *area, size_t area_length, bool aware, bool mandatory, const uint8_t *teps, size_t teps_length,
                                        const uint8_t *nonce, size_t nonce_length, uint8_t *out, size_t out_length);

struct door_link_reply door_link_receive(const uint32_t *marks, const uint8_t (*rows)[DOOR_LINK_ROW_BYTES], uint8_t (*doors)[DOOR_LINK_DOOR_BYTES],
                                         size_t door, bool syn, bool ack, const uint8_t *area, size_t area_length);

struct door_link_reply door_link_resend(const uint32_t *marks, const uint8_t (*rows)[DOOR_LINK_ROW_BYTES], const uint8_t (*doors)[DOOR_LINK_DOOR_BYTES],
                                        size_t door, uint8_t *out, size_t out_length);

struct door_link_result_reply door_link_result(const uint32_t *marks, const uint8_t (*rows)[DOOR_LINK_ROW_BYTES],
                                               const uint8_t (*doors)[DOOR_LINK_DOOR_BYTES], size_t door, uint8_t *out, size_t out_length);

struct door_link_reply door_link_close(const uint32_t *marks, const uint8_t (*rows)[DOOR_LINK_ROW_BYTES], uint8_t (*doors)[DOOR_LINK_DOOR_BYTES],
                                       size_t door);

struct door_link_reply door_link_store(uint32_t *marks, uint8_t (*rows)[DOOR_LINK_ROW_BYTES], uint8_t (*doors)[DOOR_LINK_DOOR_BYTES], size_t door,
                                       uint8_t tep, uint8_t role, const uint8_t *identifier, size_t identifier_length, const uint8_t *secret,
                                       size_t secret_length);

struct door_link_reply door_link_forget(uint32_t *marks, uint8_t (*rows)[DOOR_LINK_ROW_BYTES], uint8_t (*doors)[DOOR_LINK_DOOR_BYTES], size_t door,
                                        uint8_t tep, const uint8_t *identifier, size_t identifier_length);

struct door_link_reply door_link_count(const uint32_t *marks, const uint8_t (*rows)[DOOR_LINK_ROW_BYTES], const uint8_t (*doors)[DOOR_LINK_DOOR_BYTES],
                                       size_t door);

/* Gives 6. It is there for its name: see DOOR_LINK_ABI. */
size_t door_link_abi_6(void);

/* The bytes of a unit, DOOR_LINK_UNIT, for hosts that do not compile this header. */
size_t door_link_unit_size(void);

/* ---- What the functions below use. ---- */

#define DOOR_LINK_TEXT_OF(number) #number
#define DOOR_LINK_TEXT(number) DOOR_LINK_TEXT_OF(number)

/* Refers to the library's export of this header's number, in an instruction that does nothing: the linker has to find the name, and the processor neither reads nor
 * jumps there. The compiler does not look into the text and does not drop it. It stands in each function below, so it goes where they go: a program that calls none
 * of them needs no library. (A relocation that writes nothing, R_X86_64_NONE, would not do: newer linkers pass over the name.) */
static inline void door_link_abi(void) { __asm__ volatile("nopl door_link_abi_" DOOR_LINK_TEXT(DOOR_LINK_ABI) "@PLT(%rip)"); }

/* Null counts as length 0. */
static inline size_t door_link_length(const uint8_t *bytes, size_t length) { return bytes ? length : 0; }

/* The library takes no null pointer: in its place goes one to a byte that is not read. */
static inline const uint8_t *door_link_bytes(const uint8_t *bytes) {
    static const uint8_t none[1] = {0};
    return bytes ? bytes : none;
}

/* Overwrites what calls left on the stack below the caller's frame, DOOR_LINK_STACK bytes, for hosts that want copies of the called door's own records gone from there
 * too: call it after the calls of the unit, from the function that made them or from one that called it. What the host itself copied is the host's. */
__attribute__((naked, noinline, unused)) static void door_link_wipe_stack(void) {
    __asm__("leaq -" DOOR_LINK_TEXT(DOOR_LINK_STACK) "(%rsp), %rdi\n\txorl %eax, %eax\n\tmovl $(" DOOR_LINK_TEXT(DOOR_LINK_STACK) "/8), %ecx\n\trep stosq\n\tret");
}

/* Whether a TCP option area, 0 to 40 bytes, has an ENO option; syn says whether it is a SYN's, where two of them count as none. Null is an empty area, which has
 * none.
 * Replies: FOUND; NONE; BROKEN with place and option where the area is unreadable. Refused: 2. */
static inline __typeof__(door_link_raw_find_status) door_link_find_status __asm__("door_link_or_null_find_status");
static inline struct door_link_reply door_link_find_status(const uint8_t *area, size_t area_length, bool syn) {
    door_link_abi();
    return door_link_raw_find_status(door_link_bytes(area), door_link_length(area, area_length), syn);
}

/* ---- The unit's calls. `unit` is not null; it is const where the call changes nothing. ---- */

/* Makes the empty unit of whatever bytes stand there: every door Idle, no session record, every byte 0.
 * Replies: DONE. Never refused. */
static inline struct door_link_reply door_link_unit_erase(struct door_link_unit *unit) {
    door_link_abi();
    return door_link_erase(unit->marks, unit->rows, unit->doors);
}

/* An active open, or one that may cross with the other side's: writes this end's ENO option, to be put into the SYN's option area. In Idle; Offered then.
 *   b          this end's role: 0 host A (the usual active opener), 1 host B
 *   aware      the application-aware bit a
 *   mandatory  plain TCP unless the other side is aware too
 *   teps       one to four TEPs in rising priority; null is an empty list, refused with 3
 *   resume     whether to propose the oldest session record that the door holds of a listed TEP. That record leaves the pool for good: go on from this unit, since
 *              an older copy of it proposes the session again, which RFC 8548, 3.5, forbids
 *   nonce      eight random bytes for the resumption, never used before with that session (0 to 8 are taken); null is an empty one, with which a second resumption
 *              of the same session would have the same keys
 *   out        lent; 24 bytes are always enough; null is refused with 5, which leaves the record in place, as every refusal does. Lend just the room that the SYN has
 * Replies: WRITTEN.
 * Refused: 1; 3 where b is above 1, teps is empty, above four, repeated or unknown, nonce is above 8 bytes, or mandatory without aware; 4 not Idle; 5. */
static inline struct door_link_reply door_link_unit_offer(struct door_link_unit *unit, size_t door, uint8_t b, bool aware, bool mandatory,
                                                          const uint8_t *teps, size_t teps_length, bool resume, const uint8_t *nonce,
                                                          size_t nonce_length, uint8_t *out, size_t out_length) {
    uint8_t none[1];
    door_link_abi();
    return door_link_offer(unit->marks, unit->rows, unit->doors, door, b, aware, mandatory, door_link_bytes(teps), door_link_length(teps, teps_length),
                           resume, door_link_bytes(nonce), door_link_length(nonce, nonce_length), out ? out : none, door_link_length(out, out_length));
}

/* A passive open: takes the TCP option area of a received SYN, chooses a TEP, and writes this end's ENO option for the SYN+ACK; or ends in plain TCP,
 * writes nothing and moves no record. In Idle; Answered or Plain then. A session record that the door holds is resumed where the SYN proposes it.
 *   area       option area of the SYN, 0 to 40 bytes, not only the ENO option; null is an empty one: PLAIN with reason 2
 *   aware, mandatory, teps, nonce, out   as for door_link_unit_offer; 21 bytes are always enough
 * Replies: WRITTEN; PLAIN with reason 1 to 6.
 * Refused: 1; 2; 3 where teps is empty, above four, repeated or unknown, nonce is above 8 bytes, or mandatory without aware; 4 not Idle; 5. */
static inline struct door_link_reply door_link_unit_answer(struct door_link_unit *unit, size_t door, const uint8_t *area, size_t area_length, bool aware,
                                                           bool mandatory, const uint8_t *teps, size_t teps_length, const uint8_t *nonce,
                                                           size_t nonce_length, uint8_t *out, size_t out_length) {
    uint8_t none[1];
    door_link_abi();
    return door_link_answer(unit->marks, unit->rows, unit->doors, door, door_link_bytes(area), door_link_length(area, area_length), aware, mandatory,
                            door_link_bytes(teps), door_link_length(teps, teps_length), door_link_bytes(nonce), door_link_length(nonce, nonce_length),
                            out ? out : none, door_link_length(out, out_length));
}

/* A received segment that TCP accepts for this connection (see above: sequence and acknowledgement numbers): its flags SYN and ACK and its option area, 0 to 40 bytes;
 * null is an empty area, which has no option. door_link_is_open says whether the reply is Open.
 *   Offered   SYN+ACK: Open or Plain. SYN alone: Crossed or Plain.
 *   Crossed   SYN+ACK: Open with the same option as before, else Plain. ACK alone: Open with an ENO option, else Plain.
 *   Answered  SYN alone: no change with the same option as before, else Plain. ACK alone: Open with an ENO option, else Plain.
 *   Open, Plain  any segment: no change.
 * Until the first segment without SYN has come here, or the door is Plain, each segment without SYN that this end sends carries door_link_ack_option, in either role;
 * without it the other end goes on plain. A host that demands encryption aborts the connection at PLAIN.
 * Replies: NOW with the phase where it is not Plain; PLAIN with its reason, 1 to 7, in Plain as it was given before.
 * Refused: 1; 2; 4 for anything else, Idle included. */
static inline struct door_link_reply door_link_unit_receive(struct door_link_unit *unit, size_t door, bool syn, bool ack, const uint8_t *area,
                                                            size_t area_length) {
    const struct door_link_unit *kept = unit;
    door_link_abi();
    return door_link_receive(kept->marks, kept->rows, unit->doors, door, syn, ack, door_link_bytes(area), door_link_length(area, area_length));
}

/* Writes the option that this end sent once more, for a retransmission; a null `out` is refused with 5. Changes nothing. A stack may send its SYN+ACK once more when
 * the door is Open already: keep the bytes for that.
 * Replies: WRITTEN. Refused: 1; 4 where the door is not Offered, Crossed or Answered; 5. */
static inline struct door_link_reply door_link_unit_resend(const struct door_link_unit *unit, size_t door, uint8_t *out, size_t out_length) {
    uint8_t none[1];
    door_link_abi();
    return door_link_resend(unit->marks, unit->rows, unit->doors, door, out ? out : none, door_link_length(out, out_length));
}

/* What the connection is. Changes nothing and may be asked again.
 * Open: ENCRYPTED, with role, TEP byte and way; writes the transcript (host A's option, then host B's) to out, which 80 bytes always hold; a null `out` is refused
 * with 5. The original role and the nonces of a resumed session are not given: they stand in the transcript. The keys of a resumed session go by the original role: if
 * this end's half of the identifier, the nine bytes behind its own resumption TEP byte, is the identifier's first nine, it was host A, else host B.
 * Plain: PLAIN with its reason, and place and option with reason 1; nothing is written to out.
 *   secret     lent, 32 bytes, and always written: the session's secret where one is resumed, else zeros; null where the host does not want it
 * Refused: 1; 4 where the door is neither Open nor Plain; 5 in Open. */
static inline struct door_link_reply door_link_unit_result(const struct door_link_unit *unit, size_t door, uint8_t *out, size_t out_length,
                                                           uint8_t *secret) {
    uint8_t none[1];
    door_link_abi();
    struct door_link_result_reply told =
        door_link_result(unit->marks, unit->rows, unit->doors, door, out ? out : none, door_link_length(out, out_length));
    for (size_t i = 0; i < DOOR_LINK_SECRET; i++) {
        if (secret) secret[i] = told.secret[i];
        told.secret[i] = 0;
    }
    __asm__ volatile("" : : "r"(told.secret) : "memory"); /* the zeros are not left out */
    return told.reply;
}

/* The connection is over: Idle, from any phase. A record in hand is dropped and overwritten; those that the door holds stay. On an RST call it only where TCP accepts
 * the RST's sequence number. It is also the way to give up ENO between two SYNs.
 * Replies: DONE. Refused: 1. */
static inline struct door_link_reply door_link_unit_close(struct door_link_unit *unit, size_t door) {
    const struct door_link_unit *kept = unit;
    door_link_abi();
    return door_link_close(kept->marks, kept->rows, unit->doors, door);
}

/* Adds a session record to a door, as its newest; any phase.
 *   tep         without v
 *   role        this end's role in the connection that made the session, 0 host A, 1 host B
 *   identifier  18 bytes: host A sends the first nine of them, host B the last nine; null is refused with 3
 *   secret      32 bytes; null is refused with 3
 * The same secret must not be stored again once its record was taken: that is for the host to see to.
 * Replies: DONE. Refused: 1; 3 where tep is unknown, role is above 1, or a length is another; 6; 7. */
static inline struct door_link_reply door_link_unit_store(struct door_link_unit *unit, size_t door, uint8_t tep, uint8_t role, const uint8_t *identifier,
                                                          size_t identifier_length, const uint8_t *secret, size_t secret_length) {
    door_link_abi();
    return door_link_store(unit->marks, unit->rows, unit->doors, door, tep, role, door_link_bytes(identifier),
                           door_link_length(identifier, identifier_length), door_link_bytes(secret), door_link_length(secret, secret_length));
}

/* Removes a session record from a door and overwrites it; any phase. A record in hand, or at another door, is not held here. A null identifier is refused with 3.
 * Replies: DONE. Refused: 1; 3 where tep is unknown or identifier is not 18 bytes; 16. */
static inline struct door_link_reply door_link_unit_forget(struct door_link_unit *unit, size_t door, uint8_t tep, const uint8_t *identifier,
                                                           size_t identifier_length) {
    door_link_abi();
    return door_link_forget(unit->marks, unit->rows, unit->doors, door, tep, door_link_bytes(identifier), door_link_length(identifier, identifier_length));
}

/* How many session records a door holds; one in hand is not counted. Changes nothing.
 * Replies: HOLDS. Refused: 1. */
static inline struct door_link_reply door_link_unit_count(const struct door_link_unit *unit, size_t door) {
    door_link_abi();
    return door_link_count(unit->marks, unit->rows, unit->doors, door);
}

#ifdef __cplusplus
}
#endif

#include "door_link_messages.h"

#endif
