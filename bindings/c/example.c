/*
 * A small list: hold, forecast, look up, release, save, read back. Built and run at the top of the repository:
 *
 *   rt staticlib holdlist
 *   gcc -std=c99 -Wall -Wextra -Werror -pedantic -O2 -Ibindings/c bindings/c/example.c \
 *       target/staticlib/libholdlist.a -o target/example
 *   target/example
 *
 * Against an installed copy, after ./install PREFIX, with PREFIX/lib/pkgconfig in PKG_CONFIG_PATH:
 *
 *   gcc -std=c99 -O2 bindings/c/example.c -o target/example $(pkg-config --cflags --libs holdlist)
 */
#include <inttypes.h>
#include <stdio.h>
#include <string.h>

#include "holdlist.h"

/* the ring rule, fingerprints of 12 bits, ten buckets, no mask, no salt */
#define BUCKETS 10
static const holdlist_settings settings = {1, 12, BUCKETS, 0, 0};

/* a buffer as its two arguments */
#define LENT(t) (t), sizeof(t) / sizeof((t)[0])

static uint16_t table[HOLDLIST_CELLS(BUCKETS)];
static uint16_t copy[HOLDLIST_CELLS(BUCKETS)];
static uint32_t scratch[HOLDLIST_SCRATCH(BUCKETS)];
static uint8_t file[HOLDLIST_FILE_BYTES(BUCKETS)];
static const uint8_t masked[] = {0x2f, 2, 4, 0, 0, 0, 0, 0x0a, 9, 0, 3, 0};
static uint8_t packed[HOLDLIST_PACKED_BYTES(12, BUCKETS)];

static const uint8_t *bytes_of(const char *tag) { return (const uint8_t *)tag; }

static int64_t hold(const char *tag)
{
    return holdlist_hold(&settings, LENT(table), LENT(scratch), bytes_of(tag), strlen(tag));
}

static int64_t forecast(const char *tag)
{
    return holdlist_forecast(&settings, LENT(table), LENT(scratch), bytes_of(tag), strlen(tag));
}

static int64_t lookup(const uint16_t *cells, const char *tag)
{
    return holdlist_lookup(&settings, cells, HOLDLIST_CELLS(BUCKETS), bytes_of(tag), strlen(tag));
}

static int64_t release(const char *tag)
{
    return holdlist_release(&settings, LENT(table), bytes_of(tag), strlen(tag));
}

int main(void)
{
    char tag[16];
    int held = 0, moves = 0, found = 0;
    int64_t answer, size;
    holdlist_settings odd = {1, 12, 11, 0, 0}, season = settings, named;

    printf("settings: %" PRId64 "\n", holdlist_settings_check(&settings));
    answer = holdlist_settings_check(&odd);
    printf("eleven buckets under the ring rule: %" PRId64 ", %s\n", answer, holdlist_refusal_text(answer));
    printf("clear: %" PRId64 "\n", holdlist_clear(&settings, LENT(table)));

    /* as many tags as the list takes */
    for (;;) {
        sprintf(tag, "ewe %d", held);
        answer = hold(tag);
        if (answer < 0)
            break;
        held++;
        moves += (int)answer;
    }
    printf("held %d tags with %d moves, then %" PRId64 ": %s\n", held, moves, answer, holdlist_refusal_text(answer));

    answer = forecast("ewe 5");
    printf("forecast of ewe 5 again: %" PRId64 ", %s\n", answer, holdlist_refusal_text(answer));

    printf("look up ewe 3: %" PRId64 "\n", lookup(table, "ewe 3"));
    printf("release ewe 3: %" PRId64 "\n", release("ewe 3"));
    printf("look up ewe 3: %" PRId64 "\n", lookup(table, "ewe 3"));
    printf("look up the empty tag: %" PRId64 "\n", lookup(table, ""));

    /* ewe 5 comes under a second order, for which there is room now: one release does not clear it */
    printf("forecast of ewe 5 again: %" PRId64 " moves\n", forecast("ewe 5"));
    printf("hold ewe 5 again: %" PRId64 " moves\n", hold("ewe 5"));
    printf("look up ewe 5: %" PRId64 "\n", lookup(table, "ewe 5"));
    printf("release ewe 5: %" PRId64 "\n", release("ewe 5"));
    printf("look up ewe 5: %" PRId64 "\n", lookup(table, "ewe 5"));

    /* how long the file will be, say to book its sending */
    printf("file length: %" PRId64 " bytes\n", holdlist_file_length(&settings, LENT(table)));

    /* saved, and read into another table, of the size that the file names */
    size = holdlist_file_write(&settings, LENT(table), file, sizeof file);
    printf("saved: %" PRId64 " bytes\n", size);
    answer = holdlist_file_settings(file, (size_t)size, &named);
    printf("named: %" PRId64 ", rule %" PRIu32 ", width %" PRIu32 ", buckets %" PRIu32 ", mask %" PRIu32
           ", salt %" PRIu64 "\n",
           answer, named.rule, named.width, named.buckets, named.mask, named.salt);
    if (answer < 0 || named.buckets > BUCKETS)
        return 1; /* there is no table of that size here */
    answer = holdlist_file_read(file, (size_t)size, copy, HOLDLIST_CELLS(named.buckets), &named);
    printf("read back: %" PRId64 ", same settings: %s, same cells: %s\n", answer,
           memcmp(&named, &settings, sizeof named) == 0 ? "yes" : "no",
           memcmp(table, copy, sizeof table) == 0 ? "yes" : "no");
    answer = holdlist_file_read(file, (size_t)size - 1, LENT(copy), &named);
    printf("one byte short: %" PRId64 ", %s\n", answer, holdlist_refusal_text(answer));
    file[0] &= 0xdf; /* without the mark of its fingerprints, as files were before version 0.5 */
    answer = holdlist_file_read(file, (size_t)size, LENT(copy), &named);
    printf("an earlier file: %" PRId64 ", %s\n", answer, holdlist_refusal_text(answer));

    /* a list that was kept under rule 2 with mask 0 when that still passed: a byte for the rule, two for the mask */
    printf("an earlier mask: %" PRId64 ", then %" PRId64 " bytes", holdlist_file_settings(LENT(masked), &named),
           holdlist_file_convert(LENT(masked), file, sizeof file));
    answer = holdlist_file_settings(file, sizeof file, &named);
    printf(" of rule %" PRIu32 ", width %" PRIu32 ", buckets %" PRIu32 "\n", named.rule, named.width, named.buckets);

    /* packed, and read into another table: the same entries */
    size = holdlist_packed_write(&settings, LENT(table), packed, sizeof packed);
    printf("packed: %" PRId64 " bytes\n", size);
    printf("unpacked: %" PRId64 " entries\n",
           holdlist_packed_read(&settings, packed, (size_t)size, LENT(copy)));
    for (int i = 0; i < held; i++) {
        sprintf(tag, "ewe %d", i);
        found += lookup(copy, tag) > 0;
    }
    printf("found in it: %d\n", found);

    /* the next season's list has a salt of its own, and so other fingerprints; its file names the salt */
    season.salt = 2027;
    printf("fingerprint of ewe 3: %" PRId64 ", next season: %" PRId64 "\n",
           holdlist_fingerprint(&settings, bytes_of("ewe 3"), 5), holdlist_fingerprint(&season, bytes_of("ewe 3"), 5));
    holdlist_clear(&season, LENT(table));
    size = holdlist_file_write(&season, LENT(table), file, sizeof file);
    answer = holdlist_file_settings(file, (size_t)size, &named);
    printf("an empty list of the next season: %" PRId64 " bytes, salt %" PRIu64 "\n", size, named.salt);
    return answer < 0;
}
