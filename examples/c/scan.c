/* Scans drives kept as images: prints the map of their headers as a script's `scan` does. docs/FORMATS.md has table and images.

       scan TABLE IMAGE..    an image for each drive, in the order of drives; - for a lost one

   Reads what `raid_images save` writes, a group with one lost member too. Doesn't compare copies or parity: a rotten unit may
   be read. Status: 0 a map, 1 `scan fault K ..`, 2 wrong words, table or images. */
#include "behkuna.h"

#include <stdio.h>
#include <stdlib.h>
#include <string.h>

enum { RECORD = 12, HEADER = 32, DRIVES = 16, MEMBERS = 8, GROUPS = 512, SLOTS = 65536 };

struct extent {
    unsigned drive, number;
};

struct group {
    uint32_t group_class, members; /* members is 0 where the group isn't made */
    struct extent at[MEMBERS];
};

static unsigned drives, extents, segments, payload, blocks;
static struct group groups[GROUPS];
static uint8_t *images[DRIVES]; /* null for a lost drive */

/* A line of the table, as `0 make m 0.0 1.0 2.0`; other lines say nothing about groups. */
static void read_group(char *line) {
    unsigned number;
    char letter;
    int used;
    if (sscanf(line, "%u make %c%n", &number, &letter, &used) != 2 || number >= GROUPS) {
        return;
    }
    struct group *group = &groups[number];
    group->group_class = letter == 'm' ? BEHKUNA_MIRRORED : BEHKUNA_PARITY;
    for (char *word = strtok(line + used, " \n"); word != NULL && group->members < MEMBERS; word = strtok(NULL, " \n")) {
        struct extent at;
        if (sscanf(word, "%u.%u", &at.drive, &at.number) == 2 && at.drive < drives && at.number < extents) {
            group->at[group->members++] = at;
        }
    }
}

static int read_table(const char *name) {
    char line[256];
    FILE *file = fopen(name, "r");
    if (file == NULL) {
        return 0;
    }
    int read = fgets(line, sizeof line, file) != NULL &&
               sscanf(line, "array %u %u %u %u %u", &drives, &extents, &segments, &payload, &blocks) == 5 && drives <= DRIVES && blocks <= SLOTS;
    while (read && fgets(line, sizeof line, file) != NULL) {
        read_group(line);
    }
    fclose(file);
    return read;
}

static int read_image(unsigned drive, const char *name) {
    size_t size = (size_t)2 * segments * extents * (HEADER + payload);
    FILE *file = strcmp(name, "-") != 0 ? fopen(name, "rb") : NULL;
    if (file == NULL) {
        return strcmp(name, "-") == 0;
    }
    images[drive] = malloc(size + 1);
    int read = images[drive] != NULL && fread(images[drive], 1, size + 1, file) == size;
    fclose(file);
    return read;
}

/* The header at an offset of a member's extent; null on a lost drive. */
static const uint8_t *header_at(const struct group *group, unsigned member, unsigned offset) {
    const struct extent *at = &group->at[member];
    size_t address = (size_t)at->number * 2 * segments + offset;
    return images[at->drive] != NULL ? images[at->drive] + address * (HEADER + payload) : NULL;
}

/* The effective header of a slot: one copy, or what the other members' units add up to. */
static int header_of(const struct group *group, uint32_t index, uint8_t header[HEADER]) {
    struct behkuna_copies copies;
    struct behkuna_stripe stripe;
    const uint8_t *own = NULL;
    if (group->group_class == BEHKUNA_MIRRORED && behkuna_two_copies(group->members, segments, index, &copies) == BEHKUNA_DONE) {
        own = header_at(group, copies.first.member, copies.first.offset);
        own = own != NULL ? own : header_at(group, copies.second.member, copies.second.offset);
    }
    if (group->group_class == BEHKUNA_PARITY && behkuna_one_stripe(group->members, segments, index, &stripe) == BEHKUNA_DONE) {
        own = header_at(group, stripe.member, stripe.offset);
        memset(header, 0, HEADER);
        for (unsigned member = 0; own == NULL && member < group->members; member++) {
            const uint8_t *other = header_at(group, member, stripe.offset);
            if (member != stripe.member && (other == NULL || behkuna_xor_into(header, HEADER, other, HEADER) != BEHKUNA_DONE)) {
                return 0;
            }
        }
        if (own == NULL) {
            return 1;
        }
    }
    if (own != NULL) {
        memcpy(header, own, HEADER);
    }
    return own != NULL;
}

/* Takes a slot's record into the list, and returns the fault of the scan, or 0. */
static unsigned take_slot(const struct group *group, uint32_t slot, uint8_t *list, size_t *len) {
    uint8_t bytes[HEADER];
    struct behkuna_header header;
    if (!header_of(group, slot % 128, bytes)) {
        return 5;
    }
    if (behkuna_header_decode(bytes, &header) != BEHKUNA_DONE || (header.kind != BEHKUNA_BLANK && header.record.block >= blocks)) {
        return 2;
    }
    if (header.kind == BEHKUNA_BLANK) {
        return 0;
    }
    if (header.record.place != slot) {
        printf("scan fault 3 %u %u\n", slot, header.record.place);
        return 3;
    }
    behkuna_record_encode(&header.record, list + *len);
    *len += RECORD;
    return 0;
}

/* Prints the fault of two slots with the newest stamp of a block, where all but the place of their keys is the same. */
static int is_twice(const uint8_t *list, size_t len, const uint64_t *keys) {
    for (size_t at = 0; at < len; at += RECORD) {
        struct behkuna_record record;
        behkuna_record_decode(list + at, RECORD, &record);
        uint64_t key = behkuna_record_key(&record), newest = keys[record.block];
        if (key >> 16 == newest >> 16 && key != newest) {
            printf("scan fault 4 %u %u %u\n", record.block, record.place, (unsigned)(newest & 0xffff));
            return 1;
        }
    }
    return 0;
}

static int print_map(const uint8_t *list, size_t len) {
    static uint8_t joined[SLOTS * RECORD];
    static uint64_t keys[SLOTS];
    size_t count = 0;
    uint32_t status = behkuna_join(list, len, joined, sizeof joined, &count);
    for (size_t at = 0; at < count; at += RECORD) {
        struct behkuna_record newest;
        behkuna_record_decode(joined + at, RECORD, &newest);
        keys[newest.block] = behkuna_record_key(&newest);
    }
    if (status != BEHKUNA_DONE || is_twice(list, len, keys)) {
        fprintf(stderr, "%s", status != BEHKUNA_DONE ? behkuna_status_text(status) : "");
        return 1;
    }
    printf("scan %zu", count / RECORD);
    for (size_t at = 0; at < count; at++) {
        printf("%s%02x", at % RECORD == 0 ? " " : "", joined[at]);
    }
    printf("\n");
    return 0;
}

int main(int words, char **word) {
    static uint8_t list[SLOTS * RECORD];
    size_t len = 0;
    int read = words > 2 && read_table(word[1]) && (unsigned)words == drives + 2;
    for (unsigned drive = 0; read && drive < drives; drive++) {
        read = read_image(drive, word[drive + 2]);
    }
    if (!read) {
        fprintf(stderr, "scan: wrong words, table or images\n");
        return 2;
    }
    for (uint32_t slot = 0; slot < SLOTS; slot++) {
        const struct group *group = &groups[slot / 128];
        uint16_t slots = 0;
        if (behkuna_slot_count(group->group_class, group->members, segments, &slots) != BEHKUNA_DONE || slot % 128 >= slots) {
            continue;
        }
        unsigned fault = take_slot(group, slot, list, &len);
        if (fault == 2 || fault == 5) {
            printf("scan fault %u %u\n", fault, slot);
        }
        if (fault != 0) {
            return 1;
        }
    }
    return print_map(list, len);
}
