/* Joins the records of two controllers, decodes headers, places slots and runs a script; passes null beside a length of 0, and
   has little stack. */
#include "behkuna.h"

#include <pthread.h>
#include <stdbool.h>
#include <stdio.h>
#include <string.h>

enum { RECORD = 12 };

static void print_hex(const uint8_t *bytes, size_t len) {
    for (size_t at = 0; at < len; at++) {
        printf("%02x", bytes[at]);
    }
}

/* The records of one controller as a list. */
static size_t list_of(const struct behkuna_record *records, size_t count, uint8_t *list) {
    for (size_t at = 0; at < count; at++) {
        if (behkuna_record_encode(&records[at], list + RECORD * at) != BEHKUNA_DONE) {
            return 0;
        }
    }
    return RECORD * count;
}

static void join_two_controllers(void) {
    const struct behkuna_record ours[] = {{3, 1, 0, 0}, {1, 1, 0, 0}, {3, 2, 0, 5}};
    const struct behkuna_record theirs[] = {{3, 1, 1, 128}, {2, 1, 0, 1}, {1, 1, 0, 0}};
    uint8_t list[6 * RECORD], joined[6 * RECORD];
    size_t first = list_of(ours, 3, list);
    size_t both = first + list_of(theirs, 3, list + first);
    struct behkuna_record newest = {0};
    size_t count = 0;
    uint32_t block = 0;

    printf("keys %llu %llu %llu\n", (unsigned long long)behkuna_record_key(&ours[0]),
           (unsigned long long)behkuna_record_key(&theirs[0]), (unsigned long long)behkuna_record_key(&ours[2]));
    printf("join %u", behkuna_join(list, both, joined, sizeof joined, &count));
    for (size_t at = 0; at < count; at += RECORD) {
        printf(" ");
        print_hex(joined + at, RECORD);
    }
    printf("\n");

    /* A refused call leaves the buffer as it was. */
    size_t length = count;
    printf("join in 35 bytes %u", behkuna_join(list, both, joined, 35, &count));
    printf(", %zu are needed\n", count);
    printf("join of 71 bytes %u\n", behkuna_join(list, both - 1, joined, sizeof joined, &count));
    printf("join of a part %u", behkuna_agree(list, first, list, both, &block));
    printf(", they differ at block %u\n", block);
    printf("newest of block 3: %u", behkuna_newest(list, both, 3, &newest));
    printf(", version %u at place %u\n", newest.version, newest.place);
    printf("newest of block 4: %u\n", behkuna_newest(list, both, 4, &newest));
    printf("the join agrees %u\n", behkuna_agree(list, both, joined, length, &block));
}

static void print_header(const char *name, const uint8_t bytes[32]) {
    static const char *const kinds[] = {"blank", "data", "trim"};
    struct behkuna_header header;
    uint32_t status = behkuna_header_decode(bytes, &header);
    printf("%s: %u", name, status);
    if (status == BEHKUNA_DONE) {
        printf(" %s %u %u %u %u", kinds[header.kind], header.record.block, header.record.version, header.record.hop,
               header.record.place);
    }
    printf("\n");
}

static void decode_headers(void) {
    uint8_t layout_1[32] = {'R', 'B', 'H', '1', 0, 0, 0, 3, 0, 0, 0, 1};
    uint8_t layout_2[32] = {'R', 'B', 'H', '2', 0, 0, 0, 3, 0, 0, 0, 2, 0, 0, 0, 5, 1};
    const uint8_t blank[32] = {0};
    struct behkuna_header header = {BEHKUNA_DATA, {3, 1, 0, 0}};
    uint8_t bytes[32];

    print_header("layout 1", layout_1);
    print_header("layout 2", layout_2);
    print_header("zeros", blank);
    layout_1[20] = 1;
    print_header("byte 20 set", layout_1);
    printf("encoded %u ", behkuna_header_encode(&header, bytes));
    print_hex(bytes, sizeof bytes);
    printf("\n");
}

static void place_slots(void) {
    uint16_t mirrored = 0, parity = 0;
    struct behkuna_copies copies;
    struct behkuna_stripe stripe;

    bool done = behkuna_slot_count(BEHKUNA_MIRRORED, 3, 2, &mirrored) == BEHKUNA_DONE &&
                behkuna_slot_count(BEHKUNA_PARITY, 3, 2, &parity) == BEHKUNA_DONE &&
                behkuna_two_copies(3, 2, 2, &copies) == BEHKUNA_DONE && behkuna_one_stripe(3, 2, 5, &stripe) == BEHKUNA_DONE;
    if (!done) {
        return;
    }
    printf("%u mirrored slots, slot 2 on member %u at %u and member %u at %u\n", mirrored, copies.first.member,
           copies.first.offset, copies.second.member, copies.second.offset);
    printf("%u parity slots, slot 5 in stripe %u on member %u at %u, parity on member %u\n", parity, stripe.stripe,
           stripe.member, stripe.offset, stripe.parity);
    printf("slot 6 %u\n", behkuna_two_copies(3, 2, 6, &copies));
}

static void rebuild_a_unit(void) {
    uint8_t lost[4] = {0x12, 0x34, 0x56, 0x78};
    const uint8_t other[4] = {0xff, 0x00, 0x0f, 0xf0};
    uint8_t parity[4];
    memcpy(parity, lost, sizeof parity);

    printf("parity %u ", behkuna_xor_into(parity, 4, other, 4));
    print_hex(parity, 4);
    memset(lost, 0, sizeof lost);
    uint32_t first = behkuna_xor_into(lost, 4, other, 4);
    printf(", rebuilt %u %u ", first, behkuna_xor_into(lost, 4, parity, 4));
    print_hex(lost, 4);
    printf(", of 3 bytes %u\n", behkuna_xor_into(lost, 4, other, 3));
}

static void run_script(const char *script) {
    uint8_t answers[200];
    size_t count = 0;
    uint32_t status = behkuna_run_script((const uint8_t *)script, strlen(script), answers, sizeof answers, &count);
    printf("script %u\n", status);
    fwrite(answers, 1, count, stdout);
}

/* A pointer beside a length of 0 may be null. */
static void pass_null(void) {
    struct behkuna_record newest;
    uint8_t record[RECORD] = {0, 0, 0, 3, 0, 0, 0, 1}, none[1];
    size_t count = 1;
    uint32_t block = 0;

    printf("null: record %s\n", behkuna_status_text(behkuna_record_decode(NULL, 0, &newest)));
    uint32_t status = behkuna_join(NULL, 0, NULL, 0, &count);
    printf("null: join %s, %zu bytes\n", behkuna_status_text(status), count);
    status = behkuna_join(record, RECORD, NULL, 0, &count);
    printf("null: join of a record %s, %zu bytes\n", behkuna_status_text(status), count);
    status = behkuna_agree(NULL, 0, record, RECORD, &block);
    printf("null: agree %s at block %u\n", behkuna_status_text(status), block);
    printf("null: agree %s\n", behkuna_status_text(behkuna_agree(NULL, 0, NULL, 0, &block)));
    printf("null: newest %s\n", behkuna_status_text(behkuna_newest(NULL, 0, 3, &newest)));
    printf("null: exclusive or %s\n", behkuna_status_text(behkuna_xor_into(NULL, 0, NULL, 0)));
    printf("null: exclusive or of a byte %s\n", behkuna_status_text(behkuna_xor_into(NULL, 0, none, 1)));
    status = behkuna_run_script(NULL, 0, NULL, 0, &count);
    printf("null: script %s, %zu bytes\n", behkuna_status_text(status), count);
    status = behkuna_run_script((const uint8_t *)"#\nx\n", 4, NULL, 0, &count);
    printf("null: script with a fault %s, %zu bytes\n", behkuna_status_text(status), count);
}

/* The calls, on a thread of 64 KB of stack. */
static void *use_all(void *nothing) {
    join_two_controllers();
    decode_headers();
    place_slots();
    rebuild_a_unit();
    run_script("array 4 8 2 8 16\n"
               "make m 0.0 1.0 2.0\n"
               "claim 0 0\n"
               "fill 0 0 1122334455667788\n"
               "commit 0 0 3\n"
               "read 3\n");
    run_script("array 4 8 2 8 16\nread 16\n");
    pass_null();
    return nothing;
}

int main(void) {
    pthread_attr_t little;
    pthread_t thread;

    printf("the header's version %d\n", behkuna_api_version() == BEHKUNA_API_VERSION);
    fflush(stdout);
    bool ended = pthread_attr_init(&little) == 0 && pthread_attr_setstacksize(&little, 65536) == 0 &&
                 pthread_create(&thread, &little, use_all, NULL) == 0 && pthread_join(thread, NULL) == 0;
    return ended ? 0 : 1;
}
