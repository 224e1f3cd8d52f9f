/*
 * The hold list for C: a cuckoo filter whose memory the caller lends.
 *
 * Link with target/staticlib/libholdlist.a, which `rt staticlib holdlist` makes, or with what `./install PREFIX` puts
 * below a folder, where `pkg-config --cflags --libs holdlist` tells the rest. It needs memset and nothing else, keeps no
 * state between calls, never allocates, and may be called from several threads at once as long as no two of them share
 * a buffer that one of them writes.
 *
 * RESULTS. Every call answers an int64_t. 0 or more is the answer. Below 0 is minus the number of a refusal, one of
 * the names HOLDLIST_REFUSED_.. below, so that -7 means 7. A refused call has written nothing to the table, to out or
 * to settings, and the contents of scratch stay as they were unless the number is 9.
 *
 * SETTINGS. A pointer to a holdlist_settings, below, comes first in every call but the three that read a hold file, of
 * which two write one. Settings are checked before anything else, in the order of their members, and give 1, 2, 3 or
 * 4; every salt passes. A table is used with the settings that it was cleared or read with: nothing in it says which
 * those were. A later version may append members, so set them all: an initialiser, as { 1, 12, 1000, 0 }, makes those
 * that it leaves out 0. Version 0.4 appended the salt: what was compiled with an older header has to be compiled anew.
 *
 * SALT. A clear tag that shares fingerprint and candidates with a held one reads held. Under one salt the same unlucky
 * tags do so all year; under another others do, so each season's list can have its own. Let salts differ in their low
 * eight bits, as 1, 2, 3 do: salts that agree there move the hashes of all tags of one length by the same number, and
 * many of the unlucky tags stay unlucky. Lists of different salts are different lists: a tag is found with the salt
 * that it was held with. The hold file has the salt, the packed form has not. The default is 0.
 *
 * EARLIER LISTS. Since version 0.5 tags have other fingerprints than before, which come up equally often. A hold file
 * of an earlier version is refused with 23. A table or a packed form of one does not tell what it is: nothing refuses
 * it, and its tags are found in it by chance alone. So lists are filled anew from the register.
 * Since version 0.6 no mask of 0 or buckets - 1 passes under rule 2: of the four candidates two were the same as the
 * others. holdlist_file_convert makes a hold file of such a mask one of rule 0; a table or a packed form serves under
 * rule 0 as it is.
 *
 * TAGS AND FILES. A tag is its bytes: in another spelling, with other letters, blanks or an end of a line, it is another
 * tag and reads clear. So bring tags into one form before they are held and before they are looked up. Tags that differ
 * in their last bytes alone fill a list badly; written backwards they do not. Neither form of a saved list has a
 * checksum: a file with one bit turned over may be the file of another list, and is then read as that.
 *
 * BUFFERS. A buffer is a pointer and a count of elements. It holds at least that many elements and is aligned as its
 * element type asks; a null pointer with count 0 is an empty buffer. A buffer that a call writes overlaps none of its
 * other buffers. settings and out[4] are never null, and settings that a call writes are a buffer too.
 *   table    4 * buckets cells; bucket b is cells 4b to 4b + 3, and 0 is an empty cell
 *   scratch  2 * buckets numbers or more; what they hold before does not matter
 *   tag      1 to 64 bytes
 *
 * UNINITIALISED SCRATCH. Nobody has to set scratch, and holdlist_hold and holdlist_forecast read words of it that nobody
 * wrote. A checker of uninitialised memory, as valgrind or MSan, sees these reads. They are harmless: scratch is a
 * sparse set. Its first half is the queue of the buckets that a search has reached, and its second half has a word for
 * each bucket that says where in the queue it stands. Such a word is believed only if it names an entry that this call
 * has queued, and that entry names the bucket back; a stale word, whatever it is, fails one of the two. So what scratch
 * held changes neither the answer nor a cell, which is proved. To have such a checker silent, set scratch once, to
 * anything.
 *
 * STACK. holdlist_packed_read takes about 8 KB, every other call less than 512 bytes.
 */
#ifndef HOLDLIST_H
#define HOLDLIST_H

#include <stddef.h>
#include <stdint.h>

#ifdef __cplusplus
extern "C" {
#endif

/* The version, that of the whole repository (its file VERSION). */
#define HOLDLIST_VERSION_MAJOR 0
#define HOLDLIST_VERSION_MINOR 8
#define HOLDLIST_VERSION_PATCH 0
#define HOLDLIST_VERSION "0.8.0"

/* Settings, any numbers of which can be handed in. */
typedef struct {
    uint32_t rule;    /* 0 plain, 1 ring, 2 masked */
    uint32_t width;   /* bits of a fingerprint, 4 to 16 */
    uint32_t buckets; /* 1 to 65536: a power of two under rules 0 and 2, even under rule 1 */
    uint32_t mask;    /* 1 to buckets - 2 under rule 2, which so has 4 buckets at least, and 0 under the others */
    uint64_t salt;    /* any number: put by exclusive or to the start of the hash of a tag */
} holdlist_settings;

/*
 * The library takes them as six 32-bit numbers in a row, of which the last two are the salt, its low half first. A
 * compiler that lays them out otherwise stops here.
 */
typedef char holdlist_settings_are_six_numbers
    [sizeof(holdlist_settings) == 24 && offsetof(holdlist_settings, rule) == 0 &&
             offsetof(holdlist_settings, width) == 4 && offsetof(holdlist_settings, buckets) == 8 &&
             offsetof(holdlist_settings, mask) == 12 && offsetof(holdlist_settings, salt) == 16
         ? 1
         : -1];
#if defined(__BYTE_ORDER__) && __BYTE_ORDER__ != __ORDER_LITTLE_ENDIAN__
#error "the hold list needs a machine whose numbers have their low byte first"
#endif

/* What a refusal's number means. There is no 10, 21 or 22. */
enum {
    HOLDLIST_REFUSED_RULE = 1,              /* the rule is above 2 */
    HOLDLIST_REFUSED_WIDTH = 2,             /* the width is outside 4 to 16 */
    HOLDLIST_REFUSED_BUCKETS = 3,           /* 0 or above 65536; no power of two (rules 0, 2); odd (rule 1) */
    HOLDLIST_REFUSED_MASK = 4,              /* 0, or the bucket count less 1, or more (rule 2); not 0 (rules 0, 1) */
    HOLDLIST_REFUSED_TABLE = 5,             /* the table does not have 4 * buckets cells */
    HOLDLIST_REFUSED_SCRATCH = 6,           /* scratch has fewer than 2 * buckets numbers */
    HOLDLIST_REFUSED_TAG = 7,               /* the tag has no byte or more than 64 */
    HOLDLIST_REFUSED_BUCKET = 8,            /* there is no bucket of this number */
    HOLDLIST_REFUSED_FULL = 9,              /* the list has no room for the tag, however its entries are moved */
    HOLDLIST_REFUSED_SHORT = 11,            /* the bytes end early */
    HOLDLIST_REFUSED_MAP = 12,              /* a map bit 6 or 7; a field with its default; a mask against the rule */
    HOLDLIST_REFUSED_BUCKET_BYTE = 13,      /* a bucket's byte is above 15 */
    HOLDLIST_REFUSED_FINGERPRINT = 14,      /* a fingerprint is 0, or 2^width or more */
    HOLDLIST_REFUSED_LEFT_OVER = 15,        /* bytes are left over */
    HOLDLIST_REFUSED_OUTPUT = 16,           /* the output is too short */
    HOLDLIST_REFUSED_CELL = 17,             /* a cell is 2^width or more */
    HOLDLIST_REFUSED_ROW = 18,              /* a row number is 3876 or more */
    HOLDLIST_REFUSED_ORDER = 19,            /* a bucket is not ascending */
    HOLDLIST_REFUSED_FILLING = 20,          /* a filling bit is set */
    HOLDLIST_REFUSED_OLD_FINGERPRINTS = 23, /* map bit 5 is 0: a hold file of earlier fingerprints */
    HOLDLIST_REFUSED_NO_CONVERSION = 24     /* a sound hold file whose rule or mask needs no conversion */
};

/*
 * What a refusal's number means. It takes the number or minus the number, so that the result of a call that was refused
 * can be handed on as it is. Of any other number it says that there is no such refusal.
 */
static inline const char *holdlist_refusal_text(int64_t refusal)
{
    /* minus a positive number is there in any case, and minus the least is not */
    switch (refusal > 0 ? -refusal : refusal) {
    case -HOLDLIST_REFUSED_RULE:
        return "the rule is above 2";
    case -HOLDLIST_REFUSED_WIDTH:
        return "the width is outside 4 to 16";
    case -HOLDLIST_REFUSED_BUCKETS:
        return "the bucket count is 0 or above 65536, no power of two under rule 0 or 2, or odd under rule 1";
    case -HOLDLIST_REFUSED_MASK:
        return "the mask is not from 1 to the bucket count less 2 under rule 2, or not 0 under rule 0 or 1";
    case -HOLDLIST_REFUSED_TABLE:
        return "the table does not have four cells for each bucket";
    case -HOLDLIST_REFUSED_SCRATCH:
        return "scratch has fewer than two numbers for each bucket";
    case -HOLDLIST_REFUSED_TAG:
        return "the tag has no byte or more than 64";
    case -HOLDLIST_REFUSED_BUCKET:
        return "there is no bucket of this number";
    case -HOLDLIST_REFUSED_FULL:
        return "the list has no room for the tag, however its entries are moved";
    case -HOLDLIST_REFUSED_SHORT:
        return "the bytes end early";
    case -HOLDLIST_REFUSED_MAP:
        return "the map has a bit above its fields, a field has its default, or the mask does not fit the rule";
    case -HOLDLIST_REFUSED_BUCKET_BYTE:
        return "the byte of a bucket is above 15";
    case -HOLDLIST_REFUSED_FINGERPRINT:
        return "a fingerprint is 0 or does not fit the width";
    case -HOLDLIST_REFUSED_LEFT_OVER:
        return "bytes are left over";
    case -HOLDLIST_REFUSED_OUTPUT:
        return "the output is too short";
    case -HOLDLIST_REFUSED_CELL:
        return "a cell does not fit the width";
    case -HOLDLIST_REFUSED_ROW:
        return "a row number is 3876 or more";
    case -HOLDLIST_REFUSED_ORDER:
        return "the entries of a bucket are not ascending";
    case -HOLDLIST_REFUSED_FILLING:
        return "a filling bit is set";
    case -HOLDLIST_REFUSED_OLD_FINGERPRINTS:
        return "the file has fingerprints of an earlier kind: fill the list anew from the register";
    case -HOLDLIST_REFUSED_NO_CONVERSION:
        return "the file needs no conversion: it is sound and of another rule or mask";
    default:
        return "there is no refusal of this number";
    }
}

/* Sizes for settings that pass. The last two are the most bytes that a list can take in either form. */
#define HOLDLIST_CELLS(buckets) ((size_t)4 * (buckets))
#define HOLDLIST_SCRATCH(buckets) ((size_t)2 * (buckets))
#define HOLDLIST_FILE_BYTES(buckets) ((size_t)15 + (size_t)9 * (buckets))
#define HOLDLIST_PACKED_BYTES(width, buckets) (((size_t)4 * ((width) - 1) * (buckets) + 7) / 8)

/*
 * Checks settings. Answers 0. Writes nothing. Refuses with 1, 2, 3, 4.
 */
int64_t holdlist_settings_check(const holdlist_settings *settings);

/*
 * The fingerprint of a tag, 1 to 2^width - 1: one more than the remainder of the low 32 bits of its hash by
 * 2^width - 1. Writes nothing. Refuses with 1 to 4, 7.
 */
int64_t holdlist_fingerprint(const holdlist_settings *settings, const uint8_t *tag, size_t tag_count);

/*
 * The home bucket of a tag. Writes nothing. Refuses with 1 to 4, 7.
 */
int64_t holdlist_home(const holdlist_settings *settings, const uint8_t *tag, size_t tag_count);

/*
 * The offset of a fingerprint, by which its candidate buckets lie apart. Any 16-bit value has one, and it is the same
 * under every salt. Writes nothing. Refuses with 1 to 4.
 */
int64_t holdlist_offset(const holdlist_settings *settings, uint16_t fingerprint);

/*
 * The candidate buckets of a fingerprint that stands in a bucket: answers how many, 2, or 4 under rule 2, and
 * writes them to out, in order, and 0 to the places after them. The first is the bucket itself; some may coincide.
 * Refuses with 1 to 4, 8.
 */
int64_t holdlist_candidates(const holdlist_settings *settings, uint16_t fingerprint, uint32_t bucket, uint32_t out[4]);

/*
 * Empties every cell of the table, whatever it held. Answers 0. Refuses with 1 to 4, 5.
 */
int64_t holdlist_clear(const holdlist_settings *settings, uint16_t *table, size_t table_count);

/*
 * Looks a tag up. Answers how many copies of its fingerprint its candidate buckets have, each bucket counted once: 0
 * where the tag is clear, above 0 where it is held. As long as nothing is released that was not held, a tag counts at
 * least as often as it was held and not released, and beyond that only where another with its fingerprint and
 * candidates is held; so a tag that was never held may count too. One release takes one copy out. (Before version 0.3
 * the answer was 1 wherever the tag was held.) Writes nothing. Refuses with 1 to 4, 5, 7.
 */
int64_t holdlist_lookup(const holdlist_settings *settings, const uint16_t *table, size_t table_count,
                        const uint8_t *tag, size_t tag_count);

/*
 * Releases a tag: empties one cell that has its fingerprint. Answers 1 where it was released, 0 where there was none
 * and the table is as before. Release only what was held, since the cell may be that of another tag with the same
 * fingerprint and candidates. Refuses with 1 to 4, 5, 7.
 */
int64_t holdlist_release(const holdlist_settings *settings, uint16_t *table, size_t table_count, const uint8_t *tag,
                         size_t tag_count);

/*
 * Holds a tag. Answers how many other entries moved to make room, 0 for none, and no fewer moves of any entries would
 * have made it; a tag that is held twice has two entries. Writes the table, and scratch as it needs. Refuses with 1 to
 * 4, 5, 6, 7, 9; at 9 the table is as before.
 * Tags that spread well fill nine tenths of a large list and more before the first 9. Short tags that differ in
 * their last bytes alone, such as "tag 1" and "tag 2", may not: the hash spreads a byte by the bytes after it. Below
 * width 14 many of these share a fingerprint too, so that more of them read held by chance.
 */
int64_t holdlist_hold(const holdlist_settings *settings, uint16_t *table, size_t table_count, uint32_t *scratch,
                      size_t scratch_count, const uint8_t *tag, size_t tag_count);

/*
 * What holdlist_hold would answer now: how many entries it would move, or the same refusal. It makes the same search and
 * writes scratch as it needs, but no cell, so that the table may be one that cannot be written. A holdlist_hold that
 * comes next, with the same settings, table and tag and as many numbers of scratch, whatever they are, answers what was
 * forecast, which is proved. Refuses with 1 to 4, 5, 6, 7, 9.
 */
int64_t holdlist_forecast(const holdlist_settings *settings, const uint16_t *table, size_t table_count,
                          uint32_t *scratch, size_t scratch_count, const uint8_t *tag, size_t tag_count);

/*
 * Whether a bucket can be viewed: where the answer is 0, its cells are table + 4 * bucket, four of them. Writes
 * nothing. Refuses with 1 to 4, 5, 8.
 */
int64_t holdlist_view_check(const holdlist_settings *settings, const uint16_t *table, size_t table_count,
                            uint32_t bucket);

/*
 * How many bytes the hold file of the list will have. A holdlist_file_write that comes next for the same settings and
 * table answers this number, or refuses with 16 exactly if its output is shorter, which is proved. Writes nothing.
 * Refuses with 1 to 4, 5, 17.
 */
int64_t holdlist_file_length(const holdlist_settings *settings, const uint16_t *table, size_t table_count);

/*
 * Writes the list as a hold file, settings and all. Answers how many bytes of out it wrote, at most
 * HOLDLIST_FILE_BYTES(buckets); later bytes of out keep their values. Refuses with 1 to 4, 5, 17, 16.
 */
int64_t holdlist_file_write(const holdlist_settings *settings, const uint16_t *table, size_t table_count, uint8_t *out,
                            size_t out_count);

/*
 * The settings that a hold file names, so that a table of their size can be lent to holdlist_file_read. Answers 0, with
 * the settings in settings: they pass. It looks at the header alone, at most 15 bytes, so that the file may be bad
 * behind it. Whatever it refuses holdlist_file_read refuses with the same number.
 * Refuses with 11, 12, 23, then 1 to 4 for the file's settings.
 */
int64_t holdlist_file_settings(const uint8_t *bytes, size_t bytes_count, holdlist_settings *settings);

/*
 * Reads a hold file. Answers 0, with the cells in the table and the file's settings in settings. The table must have
 * the size that the file asks for: 4 * buckets, of the buckets that holdlist_file_settings tells. Bytes are checked as
 * they come, and nothing is written before all have passed.
 * Refuses with 11, 12, 23, then 1 to 4 for the file's settings, 5, 11, 13, 14, 15.
 */
int64_t holdlist_file_read(const uint8_t *bytes, size_t bytes_count, uint16_t *table, size_t table_count,
                           holdlist_settings *settings);

/*
 * Converts a hold file of rule 2 whose mask is 0 or buckets - 1, which no other call takes since version 0.6: writes
 * the same list under rule 0, with the same width, bucket count, salt and cells. Answers how many bytes of out it
 * wrote, three fewer than the file has; later bytes of out keep their values. On the converted list every tag is looked
 * up, held and released as it was. The file is checked as holdlist_file_read checks it, but that such a mask passes and
 * that there is no table.
 * Refuses with 11, 12, 23, then 1 to 4 for the file's settings, 11, 13, 14, 15, 24, 16.
 */
int64_t holdlist_file_convert(const uint8_t *bytes, size_t bytes_count, uint8_t *out, size_t out_count);

/*
 * Writes the list in its packed form, which leaves out the settings, the salt among them, and the order within a
 * bucket. Answers how many bytes of out it wrote, HOLDLIST_PACKED_BYTES(width, buckets); later bytes of out keep their
 * values. The form does not tell of which version its fingerprints are. Refuses with 1 to 4, 5, 17, 16.
 */
int64_t holdlist_packed_write(const holdlist_settings *settings, const uint16_t *table, size_t table_count,
                              uint8_t *out, size_t out_count);

/*
 * Reads a packed form. Answers how many cells are filled, with the cells in the table, those of a bucket ascending.
 * Nothing is written before all bytes have passed. Refuses with 1 to 4, 5, 11, 15, 18, 19, 20.
 */
int64_t holdlist_packed_read(const holdlist_settings *settings, const uint8_t *bytes, size_t bytes_count,
                             uint16_t *table, size_t table_count);

#ifdef __cplusplus
}
#endif

#endif
