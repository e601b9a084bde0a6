/* Uses every function of the header, and prints what they answer. */
#include "herringnet.h"

#include <inttypes.h>
#include <stdio.h>
#include <string.h>

static void answer(const char *what, uint64_t a)
{
    printf("%s %u %s %zu\n", what, HERRINGNET_NUMBER(a), herringnet_name(HERRINGNET_NUMBER(a)), HERRINGNET_VALUE(a));
}

static void section(const uint8_t *s, size_t n, uint32_t name, size_t block)
{
    uint64_t a = herringnet_section(s, n, name, block, HERRINGNET_PROFILE_STRICT);
    printf("section %" PRIu32 " %zu: %zu %zu\n", name, block, HERRINGNET_START(a), HERRINGNET_LENGTH(a));
}

static void fault(const char *what, uint64_t a)
{
    printf("%s %u %zu in %u at %zu\n", what, HERRINGNET_NUMBER(a), HERRINGNET_FAULT_POSITION(a),
           HERRINGNET_FAULT_SECTION(a), HERRINGNET_FAULT_START(a));
}

/* LinkInfoFlags are made wrong, and right again. */
static void faults(uint8_t *s, size_t n)
{
    fault("fault", herringnet_fault(s, n, HERRINGNET_PROFILE_STRICT));
    fault("fault one less", herringnet_fault(s, n - 1, HERRINGNET_PROFILE_STRICT));
    fault("fault nothing", herringnet_fault(NULL, 0, HERRINGNET_PROFILE_STRICT));
    s[275] ^= 4;
    fault("fault in info", herringnet_fault(s, n, HERRINGNET_PROFILE_STRICT));
    s[275] ^= 4;
    fault("fault long", herringnet_fault(s, HERRINGNET_LONGEST + 1, HERRINGNET_PROFILE_STRICT));
}

static void sections(const uint8_t *s, size_t n)
{
    for (uint32_t name = HERRINGNET_SECTION_HEADER; name <= HERRINGNET_SECTION_END; name++)
        section(s, n, name, 0);
    section(s, n, HERRINGNET_SECTION_BLOCK, 1);
    section(s, n, 10, 0);
}

static void targets(const uint8_t *s, size_t n)
{
    uint8_t out[16];
    memset(out, 'x', sizeof out);
    answer("target in 12", herringnet_target(s, n, out, 12, HERRINGNET_PROFILE_STRICT));
    printf("%.16s\n", (const char *)out);
    answer("target in 13", herringnet_target(s, n, out, 13, HERRINGNET_PROFILE_STRICT));
    printf("%.16s\n", (const char *)out);
    answer("target of nothing", herringnet_target(NULL, 0, NULL, 0, HERRINGNET_PROFILE_STRICT));
}

static void bytes(const uint8_t *b, size_t n)
{
    for (size_t i = 0; i < n; i++)
        printf("%02x", b[i]);
    printf("\n");
}

static void keys(const uint8_t *s, size_t n)
{
    uint8_t out[50];
    memset(out, 0xEE, sizeof out);
    answer("key in 47", herringnet_key(s, n, out, 47, HERRINGNET_PROFILE_STRICT));
    bytes(out, sizeof out);
    answer("key in 48", herringnet_key(s, n, out, 48, HERRINGNET_PROFILE_STRICT));
    bytes(out, sizeof out);
    answer("key of one less", herringnet_key(s, n - 1, out, sizeof out, HERRINGNET_PROFILE_STRICT));
    answer("key of nothing", herringnet_key(NULL, 0, NULL, 0, HERRINGNET_PROFILE_STRICT));
}

/* Flag bit 8 takes the target text away. */
static void blind(uint8_t *s, size_t n)
{
    answer("blind", herringnet_key_blind(s, n, HERRINGNET_PROFILE_STRICT));
    s[21] ^= 1;
    answer("blind without target", herringnet_key_blind(s, n, HERRINGNET_PROFILE_STRICT));
    s[21] ^= 1;
    answer("blind of one less", herringnet_key_blind(s, n - 1, HERRINGNET_PROFILE_STRICT));
    answer("blind of nothing", herringnet_key_blind(NULL, 0, HERRINGNET_PROFILE_STRICT));
}

/* Home from Unicode, and there again: LinkInfo's short head has become the long one. */
static void moves(const uint8_t *s, size_t n)
{
    static uint8_t home[HERRINGNET_LONGEST], there[HERRINGNET_LONGEST];
    uint64_t a;
    answer("to unicode", herringnet_to_unicode(s, n, home, sizeof home, HERRINGNET_PROFILE_STRICT));
    answer("to bytes in 444", herringnet_to_bytes(s, n, home, 444, HERRINGNET_PROFILE_STRICT));
    a = herringnet_to_bytes(s, n, home, sizeof home, HERRINGNET_PROFILE_STRICT);
    answer("to bytes", a);
    answer("there again", herringnet_to_unicode(home, HERRINGNET_VALUE(a), there, sizeof there, HERRINGNET_PROFILE_STRICT));
    answer("to bytes of nothing", herringnet_to_bytes(NULL, 0, NULL, 0, HERRINGNET_PROFILE_STRICT));
}

static void records(const uint8_t *s, size_t n)
{
    uint64_t fields[HERRINGNET_FIELD_COUNT];
    static uint8_t out[HERRINGNET_LONGEST];
    answer("read into 50", herringnet_read(s, n, fields, HERRINGNET_FIELD_COUNT - 1, HERRINGNET_PROFILE_STRICT));
    answer("read", herringnet_read(s, n, fields, HERRINGNET_FIELD_COUNT, HERRINGNET_PROFILE_STRICT));
    for (int i = 0; i < HERRINGNET_FIELD_COUNT; i++)
        printf("%" PRIu64 "%s", fields[i], i + 1 < HERRINGNET_FIELD_COUNT ? " " : "\n");
    answer("write in 458", herringnet_write(fields, HERRINGNET_FIELD_COUNT, s, n, out, 458, HERRINGNET_PROFILE_STRICT));
    answer("write", herringnet_write(fields, HERRINGNET_FIELD_COUNT, s, n, out, sizeof out, HERRINGNET_PROFILE_STRICT));
    printf("%s\n", memcmp(s, out, n) == 0 ? "same bytes" : "other bytes");
    answer("write from less", herringnet_write(fields, HERRINGNET_FIELD_COUNT, s, n - 5, out, sizeof out, HERRINGNET_PROFILE_STRICT));
    fields[HERRINGNET_FIELD_FURTHER_LEN] = 8;
    answer("write a short head with more", herringnet_write(fields, HERRINGNET_FIELD_COUNT, s, n, out, sizeof out, HERRINGNET_PROFILE_STRICT));
    fields[HERRINGNET_FIELD_FURTHER_LEN] = 0;
    fields[HERRINGNET_FIELD_ATTRIBUTES] = 8;
    answer("write wrong", herringnet_write(fields, HERRINGNET_FIELD_COUNT, s, n, out, sizeof out, HERRINGNET_PROFILE_STRICT));
    fields[HERRINGNET_FIELD_LONG] = 2;
    answer("write no record", herringnet_write(fields, HERRINGNET_FIELD_COUNT, s, n, out, sizeof out, HERRINGNET_PROFILE_STRICT));
    answer("write no fields", herringnet_write(NULL, 0, s, n, out, sizeof out, HERRINGNET_PROFILE_STRICT));
}

static void paths(const uint8_t *s, size_t n)
{
    static const uint8_t text[260] = "%TOOLS%", unicode[6] = { '%', 0, 'T', 0, '%', 0 };
    const size_t count = HERRINGNET_FIELD_COUNT;
    const uint32_t strict = HERRINGNET_PROFILE_STRICT;
    uint64_t fields[HERRINGNET_FIELD_COUNT];
    static uint8_t out[HERRINGNET_LONGEST];
    herringnet_read(s, n, fields, count, strict);
    answer("path block in 1246", herringnet_path_block(fields, count, s, n, HERRINGNET_DARWIN, text, 7, unicode, 6, out, 1246, strict));
    answer("path block", herringnet_path_block(fields, count, s, n, HERRINGNET_DARWIN, text, 7, unicode, 6, out, sizeof out, strict));
    bytes(out + n - 4, 20);
    answer("path block without texts", herringnet_path_block(fields, count, s, n, HERRINGNET_ENVIRONMENT, NULL, 0, NULL, 0, out, sizeof out, strict));
    answer("path block with zeros", herringnet_path_block(fields, count, s, n, HERRINGNET_ENVIRONMENT, text, 8, unicode, 6, out, sizeof out, strict));
    answer("path block of half a unit", herringnet_path_block(fields, count, s, n, HERRINGNET_ICON_ENVIRONMENT, text, 7, unicode, 5, out, sizeof out, strict));
    answer("path block of another kind", herringnet_path_block(fields, count, s, n, 0xA0000005, text, 7, unicode, 6, out, sizeof out, strict));
    answer("path block from less", herringnet_path_block(fields, count, s, n - 5, 0xA0000005, text, 7, unicode, 6, out, sizeof out, strict));
    answer("path block without fields", herringnet_path_block(NULL, 0, s, n, HERRINGNET_DARWIN, text, 7, unicode, 6, out, sizeof out, strict));
}

/* Attribute bit 15 is set, and cleared again; 2 is no profile. */
static void profiles(uint8_t *s, size_t n)
{
    static uint8_t out[HERRINGNET_LONGEST];
    static uint64_t fields[HERRINGNET_FIELD_COUNT];
    s[25] ^= 0x80;
    answer("check strict", herringnet_check(s, n, HERRINGNET_PROFILE_STRICT));
    answer("check 95", herringnet_check(s, n, HERRINGNET_PROFILE_95));
    fault("fault 95", herringnet_fault(s, n, HERRINGNET_PROFILE_95));
    answer("target 95", herringnet_target(s, n, out, sizeof out, HERRINGNET_PROFILE_95));
    answer("key 95", herringnet_key(s, n, out, sizeof out, HERRINGNET_PROFILE_95));
    answer("blind 95", herringnet_key_blind(s, n, HERRINGNET_PROFILE_95));
    answer("section 95", herringnet_section(s, n, HERRINGNET_SECTION_END, 0, HERRINGNET_PROFILE_95));
    answer("list 95", herringnet_store_list(s, n, fields, 0, HERRINGNET_PROFILE_95));
    answer("read 95", herringnet_read(s, n, fields, HERRINGNET_FIELD_COUNT, HERRINGNET_PROFILE_95));
    answer("write strict", herringnet_write(fields, HERRINGNET_FIELD_COUNT, s, n, out, sizeof out,
                                            HERRINGNET_PROFILE_STRICT));
    answer("write 95", herringnet_write(fields, HERRINGNET_FIELD_COUNT, s, n, out, sizeof out, HERRINGNET_PROFILE_95));
    answer("path block strict", herringnet_path_block(fields, HERRINGNET_FIELD_COUNT, s, n, HERRINGNET_DARWIN, NULL, 0, NULL, 0,
                                                      out, sizeof out, HERRINGNET_PROFILE_STRICT));
    answer("path block 95", herringnet_path_block(fields, HERRINGNET_FIELD_COUNT, s, n, HERRINGNET_DARWIN, NULL, 0, NULL, 0,
                                                  out, sizeof out, HERRINGNET_PROFILE_95));
    answer("to unicode 95", herringnet_to_unicode(s, n, out, sizeof out, HERRINGNET_PROFILE_95));
    answer("to bytes strict", herringnet_to_bytes(s, n, out, sizeof out, HERRINGNET_PROFILE_STRICT));
    answer("to bytes 95", herringnet_to_bytes(s, n, out, sizeof out, HERRINGNET_PROFILE_95));
    s[25] ^= 0x80;
    answer("check 2", herringnet_check(s, n, 2));
    fault("fault 2", herringnet_fault(s, n, 2));
    answer("target 2", herringnet_target(s, n, out, sizeof out, 2));
    answer("key 2", herringnet_key(s, n, out, sizeof out, 2));
    answer("blind 2", herringnet_key_blind(s, n, 2));
    answer("section 2", herringnet_section(s, n, HERRINGNET_SECTION_END, 0, 2));
    answer("list 2", herringnet_store_list(s, n, fields, 0, 2));
    answer("read 2", herringnet_read(s, n, fields, 0, 2));
    answer("write 2", herringnet_write(fields, 0, s, n, out, sizeof out, 2));
    answer("path block 2", herringnet_path_block(fields, 0, s, n, 0, NULL, 0, NULL, 0, out, sizeof out, 2));
    answer("to unicode 2", herringnet_to_unicode(s, n, out, sizeof out, 2));
    answer("to bytes 2", herringnet_to_bytes(s, n, out, sizeof out, 2));
}

static void salvages(const uint8_t *s, size_t n)
{
    static uint8_t out[HERRINGNET_LONGEST];
    memset(out, 0xEE, sizeof out);
    answer("salvage", herringnet_salvage(s, n, out, sizeof out));
    printf("%s\n", memcmp(s, out, n) == 0 && out[n] == 0xEE ? "same bytes" : "other bytes");
    answer("salvage in one less", herringnet_salvage(s, n, out, n - 1));
    uint64_t less = herringnet_salvage(s, n - 1, out, sizeof out);
    answer("salvage of one less", less);
    printf("was %u kept %zu dropped %zu\n", HERRINGNET_SALVAGE_WAS(less), HERRINGNET_SALVAGE_KEPT(less),
           HERRINGNET_SALVAGE_DROPPED(less));
    bytes(out + n - 8, 10);
    answer("salvage of a header", herringnet_salvage(s, 76, out, sizeof out));
    answer("salvage of nothing", herringnet_salvage(NULL, 0, NULL, 0));
}

static void numbers(const uint64_t *row, size_t n)
{
    for (size_t i = 0; i < n; i++)
        printf("%" PRIu64 "%s", row[i], i + 1 < n ? " " : "\n");
}

/* One storage with one value: written, put into a block in place of the terminal, and listed there. */
static void stores(uint8_t *s, size_t n)
{
    const uint8_t body[] = "0123456789abcdefrv64";
    const uint64_t rows[] = {HERRINGNET_ROW_STORAGE, 0, 0, 0, 0, 16, HERRINGNET_ROW_BY_NUMBER, 5, 0, 0, 16, 4};
    uint64_t listed[13];
    size_t all = sizeof rows / sizeof rows[0], block = n - 4, in = sizeof body - 1;
    answer("store in 44", herringnet_store_write(rows, all, body, in, s + block + 8, 44));
    answer("store of 11 numbers", herringnet_store_write(rows, all - 1, body, in, s + block + 8, 45));
    answer("store from less", herringnet_store_write(rows, all, body, in - 1, s + block + 8, 45));
    answer("store of a value alone", herringnet_store_write(rows + 6, 6, body, in, s + block + 8, 45));
    answer("store", herringnet_store_write(rows, all, body, in, s + block + 8, 45));
    bytes(s + block + 8, 45);
    memcpy(s + block, "\x35\0\0\0\x09\0\0\xa0", 8);
    memset(s + block + 53, 0, 4);
    memset(listed, 0xEE, sizeof listed);
    answer("rows in 11", herringnet_store_list(s, block + 57, listed, all - 1, HERRINGNET_PROFILE_STRICT));
    numbers(listed, 1);
    answer("rows", herringnet_store_list(s, block + 57, listed, 13, HERRINGNET_PROFILE_STRICT));
    numbers(listed, 13);
    answer("blind with a value", herringnet_key_blind(s, block + 57, HERRINGNET_PROFILE_STRICT));
    answer("rows of one less", herringnet_store_list(s, block + 56, listed, 13, HERRINGNET_PROFILE_STRICT));
    s[block + 8 + 4] ^= 1;
    answer("rows of a wrong version", herringnet_store_list(s, block + 57, listed, 13, HERRINGNET_PROFILE_STRICT));
    answer("rows of nothing", herringnet_store_list(NULL, 0, NULL, 0, HERRINGNET_PROFILE_STRICT));
}

static void entry(const char *what, uint64_t a)
{
    printf("%s %u %zu %zu\n", what, HERRINGNET_NUMBER(a), HERRINGNET_ENTRY_START(a), HERRINGNET_ENTRY_LENGTH(a));
}

/* The shortcut twice, on a shelf and in the old form. */
static void shelves(const uint8_t *s, size_t n)
{
    static uint8_t bodies[1000], shelf[1000], old[1000], again[1000];
    uint64_t lengths[HERRINGNET_MOST_ENTRIES + 1] = {n, n};
    memcpy(bodies, s, n);
    memcpy(bodies + n, s, n);
    answer("shelf in 937", herringnet_shelf_build(lengths, 2, bodies, 2 * n, shelf, 937));
    answer("shelf", herringnet_shelf_build(lengths, 2, bodies, 2 * n, shelf, 938));
    answer("shelf check", herringnet_shelf_check(shelf, 938));
    answer("shelf one less", herringnet_shelf_check(shelf, 937));
    entry("entry 1", herringnet_shelf_entry(shelf, 938, 1));
    answer("entry 2", herringnet_shelf_entry(shelf, 938, 2));
    answer("to old in 925", herringnet_shelf_to_old(shelf, 938, old, 925));
    answer("to old", herringnet_shelf_to_old(shelf, 938, old, 926));
    answer("from old", herringnet_shelf_from_old(old, 926, again, sizeof again));
    printf("%s\n", memcmp(shelf, again, 938) == 0 ? "same bytes" : "other bytes");
    answer("from one less", herringnet_shelf_from_old(old, 925, again, sizeof again));
    shelf[20] ^= 1;
    answer("entry 1 by a bad one", herringnet_shelf_entry(shelf, 938, 1));
    entry("one 1 by a bad one", herringnet_shelf_one(shelf, 938, 1));
    answer("one 0, bad", herringnet_shelf_one(shelf, 938, 0));
    lengths[1] = UINT64_MAX;
    lengths[2] = n + 1;
    answer("shelf of a sum that wraps", herringnet_shelf_build(lengths, 3, bodies, 2 * n, again, sizeof again));
    answer("shelf of 65", herringnet_shelf_build(lengths, HERRINGNET_MOST_ENTRIES + 1, bodies, 2 * n, again, sizeof again));
    answer("shelf of none", herringnet_shelf_build(NULL, 0, NULL, 0, again, sizeof again));
}

static void names(void)
{
    for (unsigned number = 0; number < 256; number++)
        printf("name %u %s\n", number, herringnet_name(number));
    printf("version %s %d\n", HERRINGNET_VERSION, HERRINGNET_VERSION_NUMBER);
}

int main(void)
{
    static uint8_t s[HERRINGNET_LONGEST + 1];
    size_t n = fread(s, 1, sizeof s, stdin);
    answer("check", herringnet_check(s, n, HERRINGNET_PROFILE_STRICT));
    answer("check one less", herringnet_check(s, n - 1, HERRINGNET_PROFILE_STRICT));
    answer("check nothing", herringnet_check(NULL, 0, HERRINGNET_PROFILE_STRICT));
    faults(s, n);
    sections(s, n);
    targets(s, n);
    keys(s, n);
    blind(s, n);
    moves(s, n);
    records(s, n);
    paths(s, n);
    profiles(s, n);
    shelves(s, n);
    salvages(s, n);
    stores(s, n);
    names();
    return 0;
}
