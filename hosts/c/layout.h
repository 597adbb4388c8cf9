/* The unit's bytes as crate unit_bytes lays them out, for the tests. A host needs none of this. */
#ifndef DOOR_LINK_LAYOUT_H
#define DOOR_LINK_LAYOUT_H

#include "door_link.h"

/* A session record, and the bytes of a row. */
struct session_record {
    uint8_t tep;
    uint8_t role;
    uint8_t identifier[18];
    uint8_t secret[32];
};

/* A door's bytes: its numbers, then the two options, then identifier and secret of the record in hand. A flag is a byte. */
struct door {
    uint8_t phase; /* 0 Idle to 4 Open, 5 Plain */
    uint8_t mandatory; /* a flag */
    uint8_t reason;
    uint8_t place;
    uint8_t kind;
    uint8_t role;
    uint8_t tep;
    uint8_t resumed; /* a flag */
    uint8_t own_length;
    uint8_t peer_length;
    uint8_t held; /* a flag */
    uint8_t hand_tep;
    uint8_t hand_role;
    uint8_t count;
    uint8_t rows[4];
    uint8_t own[40];
    uint8_t peer[40];
    uint8_t hand_identifier[18];
    uint8_t hand_secret[32];
};

/* All of them: bit i % 32, from the lowest, of word i / 32 is row i's mark, set where the row is in use. */
struct unit {
    uint32_t marks[DOOR_LINK_WORDS];
    struct session_record rows[DOOR_LINK_ROWS];
    struct door doors[DOOR_LINK_DOORS];
};

/* Whether a row is marked. */
static inline bool marked(const struct unit *unit, size_t row) { return unit->marks[row / 32] >> row % 32 & 1; }

#endif
