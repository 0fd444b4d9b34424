/* Records, headers, joins, geometry, exclusive or and scripts of a two-level array of disks, mirrored and RAID 5.
   The calls are proved in Rattle, crate raid_c. Nothing checks what a caller passes:

   - A pointer to bytes may be null if its length is 0: nothing is read or written through it then. No other pointer is null.
   - A pointer to a number or a struct is aligned as its type is in C: size_t to 8 bytes, uint32_t to 4, uint16_t to 2,
     struct behkuna_record and struct behkuna_header to 4, struct behkuna_copies and struct behkuna_stripe to 2. Bytes may
     begin anywhere.
   - A slice is a pointer to bytes and the number of them, below 2^63.
   - What a call writes (the pointers without const) overlaps nothing else that the call is given.
   - A call is made neither from a signal handler nor in the child of a fork of a process with threads.
   - The calling thread has 64 KB of stack left. A call that lacks it ends the process.
   - The processor has the instructions of x86-64-v2 (up to SSE4.2). The archive doesn't test that.

   Given that, a call returns for every value of its arguments, and its status is one of those beside it below. What a call
   doesn't write stays as it was. Calls share no state, so threads may call at once, each with buffers of its own.

   Numbers in byte formats have their highest byte first. A slot's number is 128 times its group's, and its index there. */
#ifndef BEHKUNA_H
#define BEHKUNA_H

#include <stddef.h>
#include <stdint.h>

#ifdef __cplusplus
extern "C" {
#endif

/* Goes up by one whenever a declaration below is added or changes. */
#define BEHKUNA_API_VERSION 1u

/* The version of the archive that is linked: BEHKUNA_API_VERSION, unless it was built from other sources. */
uint32_t behkuna_api_version(void);

/* What a call comes to. */
enum behkuna_status {
    BEHKUNA_DONE = 0,      /* the call did what it is for */
    BEHKUNA_LENGTH = 1,    /* bytes of another length than wanted */
    BEHKUNA_FAULT = 2,     /* a line of the script is wrong: its fault is the last answer */
    BEHKUNA_ROOM = 3,      /* the buffer is too short: *count is the number of bytes needed */
    BEHKUNA_MEMORY = 4,    /* out of memory */
    BEHKUNA_VERSION = 5,   /* a record has version 0 */
    BEHKUNA_NO_HEADER = 6, /* the bytes are no header */
    BEHKUNA_DIFFERS = 7,   /* two lists of records have different maps */
    BEHKUNA_RANGE = 8,     /* a number is out of its range */
    BEHKUNA_ABSENT = 9     /* no record of the list has the block */
};

/* A status in words, for messages. */
static inline const char *behkuna_status_text(uint32_t status) {
    switch (status) {
    case BEHKUNA_DONE: return "done";
    case BEHKUNA_LENGTH: return "wrong length";
    case BEHKUNA_FAULT: return "a fault of the script";
    case BEHKUNA_ROOM: return "the buffer is too short";
    case BEHKUNA_MEMORY: return "out of memory";
    case BEHKUNA_VERSION: return "a record has version 0";
    case BEHKUNA_NO_HEADER: return "the bytes are no header";
    case BEHKUNA_DIFFERS: return "the maps differ";
    case BEHKUNA_RANGE: return "a number is out of its range";
    case BEHKUNA_ABSENT: return "no record of the block";
    default: return "no status";
    }
}

/* ---- Memory ----------------------------------------------------------------------------------------------------------- */

/* The calls that can return BEHKUNA_MEMORY allocate, by these three functions, which the program supplies. Nothing stays
   allocated after a call. examples/c/heap.c has them over malloc; they come from one allocator. */
struct rattle_block {
    uint64_t ok; /* 1, or 0 if out of memory */
    void *block; /* never null, also with ok 0 */
};

/* A block of size bytes, aligned to align bytes (1 to 16, a power of two). size may be 0. */
struct rattle_block rattle_alloc(size_t size, size_t align);

/* Resizes a block of these functions, with the align that it was allocated with. Its first kept bytes stay, at most those of
   either size. With ok 0 the block stays as it was. */
struct rattle_block rattle_realloc(void *block, size_t kept, size_t size, size_t align);

/* Frees a block of these functions. */
void rattle_dealloc(void *block);

/* ---- Records ---------------------------------------------------------------------------------------------------------- */

/* A record of a commit. Of two records of a block the one of the greater key is the newer. */
struct behkuna_record {
    uint32_t block;
    uint32_t version; /* counts the acknowledged writes of the block; at least 1 in a record */
    uint16_t hop;     /* counts the moves of the block since that write */
    uint16_t place;   /* the number of the slot that holds it */
};

/* The twelve bytes of a record: block (0 to 3), version (4 to 7), hop (8 and 9), place (10 and 11).
   BEHKUNA_VERSION: the version is 0. */
uint32_t behkuna_record_encode(const struct behkuna_record *record, uint8_t bytes[12]);

/* The record that twelve bytes spell.
   BEHKUNA_LENGTH: bytes_len isn't 12. BEHKUNA_VERSION: they spell version 0. */
uint32_t behkuna_record_decode(const uint8_t *bytes, size_t bytes_len, struct behkuna_record *record);

/* The key: version * 2^32 + hop * 2^16 + place. A version of 0 isn't refused. */
uint64_t behkuna_record_key(const struct behkuna_record *record);

/* The record of a block that has this key.
   BEHKUNA_VERSION: the key is below 2^32, that of a version of 0. */
uint32_t behkuna_record_of_key(uint32_t block, uint64_t key, struct behkuna_record *record);

/* ---- Headers of units ------------------------------------------------------------------------------------------------- */

enum behkuna_kind {
    BEHKUNA_BLANK = 0, /* the unit's payload belongs to no record */
    BEHKUNA_DATA = 1,  /* the unit holds the payload of a write */
    BEHKUNA_TRIM = 2   /* the block is absent from this record on */
};

struct behkuna_header {
    uint32_t kind;                /* one of enum behkuna_kind */
    struct behkuna_record record; /* all zero in a blank header that was decoded */
};

/* The header that the first 32 bytes of a unit spell, in layout 1 or 2.
   BEHKUNA_NO_HEADER: they spell none. */
uint32_t behkuna_header_decode(const uint8_t bytes[32], struct behkuna_header *header);

/* The 32 bytes of a header, in layout 2; of a blank one they are zeros, and its record isn't read.
   BEHKUNA_RANGE: the kind is above 2. BEHKUNA_VERSION: the kind is 1 or 2 and the record's version is 0. */
uint32_t behkuna_header_encode(const struct behkuna_header *header, uint8_t bytes[32]);

/* ---- Lists of records, twelve bytes each ------------------------------------------------------------------------------ */

/* A list of records is the form in which a block map crosses; the kit lets no pointer to a map cross to C. The order of its
   records and duplicates in it mean nothing. A record appended to a list is taken into its map, and a list appended to
   another is merged into it. behkuna_join gives the shortest list of the same map. */

/* The newest record of each block of a list, in the blocks' order, as a list at the start of joined. *count is its length in
   bytes.
   BEHKUNA_LENGTH: records_len is no multiple of 12, tested first. BEHKUNA_VERSION: a record has version 0. BEHKUNA_MEMORY.
   BEHKUNA_ROOM: joined_len is less than *count. But for BEHKUNA_DONE and BEHKUNA_ROOM *count is 0. */
uint32_t behkuna_join(const uint8_t *records, size_t records_len, uint8_t *joined, size_t joined_len, size_t *count);

/* Whether two lists have the same newest record of each block.
   BEHKUNA_DIFFERS: they don't; *block is the lowest block of which they differ, and is written with this status alone.
   BEHKUNA_LENGTH, BEHKUNA_VERSION, BEHKUNA_MEMORY: as of behkuna_join, of ours before theirs. */
uint32_t behkuna_agree(const uint8_t *ours, size_t ours_len, const uint8_t *theirs, size_t theirs_len, uint32_t *block);

/* The newest record of one block of a list. It takes time by the list's length, and no memory.
   BEHKUNA_ABSENT: no record has the block. BEHKUNA_LENGTH, BEHKUNA_VERSION: as of behkuna_join. */
uint32_t behkuna_newest(const uint8_t *records, size_t records_len, uint32_t block, struct behkuna_record *record);

/* ---- Geometry --------------------------------------------------------------------------------------------------------- */

/* A group has 3 to 8 members, one extent each, numbered from 0 in the group's order. An extent has 1 to 8 segments of two
   units. An offset counts the units of an extent from 0. An index counts the slots of a group from 0. */
enum behkuna_class {
    BEHKUNA_MIRRORED = 0,
    BEHKUNA_PARITY = 1
};

struct behkuna_unit {
    uint16_t member;
    uint16_t offset;
};

/* The two copies of a mirrored slot, on different members. */
struct behkuna_copies {
    struct behkuna_unit first;
    struct behkuna_unit second;
};

/* Where a parity slot lies, and the member that has the parity of its stripe, at the same offset. */
struct behkuna_stripe {
    uint16_t stripe;
    uint16_t member;
    uint16_t offset;
    uint16_t parity;
};

/* How many slots a group has, up to 112.
   BEHKUNA_RANGE, of this call and the next two: group_class isn't one of enum behkuna_class, members isn't 3 to 8, segments
   isn't 1 to 8, or index isn't below the number of slots. */
uint32_t behkuna_slot_count(uint32_t group_class, uint32_t members, uint32_t segments, uint16_t *slots);

/* The copies of a slot of a mirrored group. */
uint32_t behkuna_two_copies(uint32_t members, uint32_t segments, uint32_t index, struct behkuna_copies *copies);

/* The stripe of a slot of a parity group. */
uint32_t behkuna_one_stripe(uint32_t members, uint32_t segments, uint32_t index, struct behkuna_stripe *stripe);

/* ---- Exclusive or ----------------------------------------------------------------------------------------------------- */

/* into[i] ^= from[i], for each byte.
   BEHKUNA_LENGTH: the lengths differ. */
uint32_t behkuna_xor_into(uint8_t *into, size_t into_len, const uint8_t *from, size_t from_len);

/* ---- Scripts ---------------------------------------------------------------------------------------------------------- */

/* Runs a script on an array in memory that ends with the call. Its answers, a line each, are put at the start of answers, and
   *count is their length in bytes. docs/FORMATS.md has the commands and their answers.
   BEHKUNA_FAULT: a line is wrong; the answers before it are there, then the line `fault NUMBER KIND`.
   BEHKUNA_ROOM: answers_len is less than *count, and the answers stay. BEHKUNA_MEMORY: *count is 0, and the answers stay. */
uint32_t behkuna_run_script(const uint8_t *script, size_t script_len, uint8_t *answers, size_t answers_len, size_t *count);

#ifdef __cplusplus
}
#endif
#endif
