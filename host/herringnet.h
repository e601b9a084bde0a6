/* Reads, checks and writes Windows shortcuts (.LNK files): the proved functions of Herringnet's archive.
 *
 * Link with libherringnet.a and nothing else than the C library (x86-64 Linux). Where it was installed:
 *     cc program.c $(pkg-config --cflags --libs herringnet)
 * In the repository the same archive is target/staticlib/libscheduler.a.
 *
 * Every function takes slices, each as a pointer and a length, and has no other condition than these:
 *   - a pointer with its length names memory that the caller may read, and where it is not const write; a null pointer
 *     may stand with length 0, and is an empty slice;
 *   - memory that is written overlaps no other slice of the same call. Nothing tests this: it is the
 *     caller's duty.
 * A length counts elements: bytes of a uint8_t slice, numbers of a uint64_t slice.
 *
 * Every function answers one number: a number of enum herringnet_number + 256 x a value. The value is the length of a
 * success, or the position of a refusal. A refusal changes no byte of out and no number of fields or
 * rows. A success changes only the first bytes of out, as many as the length says, and all of fields.
 *
 * profile is a number of enum herringnet_profile. Any other is refused with PROFILE, before all else.
 *
 * The rules by which they answer are docs/FORMAT.md of the repository, and comments here name its headings.
 */
#ifndef HERRINGNET_H
#define HERRINGNET_H

#include <stddef.h>
#include <stdint.h>

#ifdef __cplusplus
extern "C" {
#endif

/* The version of this header, and the same as a number: 10,000 x the first part + 100 x the second + the third. */
#define HERRINGNET_VERSION "0.1.0"
#define HERRINGNET_VERSION_NUMBER 100

/* The two parts of an answer. */
#define HERRINGNET_NUMBER(answer) ((unsigned)((answer) % 256))
#define HERRINGNET_VALUE(answer) ((size_t)((answer) / 256))

/* The two parts of the value that herringnet_section answers. */
#define HERRINGNET_START(answer) (HERRINGNET_VALUE(answer) % 65537)
#define HERRINGNET_LENGTH(answer) (HERRINGNET_VALUE(answer) / 65537)

/* The three parts of the value that herringnet_fault answers. */
#define HERRINGNET_FAULT_POSITION(answer) (HERRINGNET_VALUE(answer) % 65537)
#define HERRINGNET_FAULT_START(answer) (HERRINGNET_VALUE(answer) / 65537 % 65537)
#define HERRINGNET_FAULT_SECTION(answer) ((unsigned)(HERRINGNET_VALUE(answer) / 65537 / 65537))

/* The two parts of the value that herringnet_shelf_entry and herringnet_shelf_one answer. A start on a shelf may pass
 * 65,536, so that here the length is the low part. */
#define HERRINGNET_ENTRY_START(answer) (HERRINGNET_VALUE(answer) / 65537)
#define HERRINGNET_ENTRY_LENGTH(answer) (HERRINGNET_VALUE(answer) % 65537)

/* The most entries that a shelf may have. */
#define HERRINGNET_MOST_ENTRIES 64

/* The three parts of the value that herringnet_salvage answers: the number that the shortcut was refused with, 0 for an
 * accepted one, and how many of its bytes are kept and dropped. */
#define HERRINGNET_SALVAGE_WAS(answer) ((unsigned)(HERRINGNET_VALUE(answer) % 256))
#define HERRINGNET_SALVAGE_KEPT(answer) (HERRINGNET_VALUE(answer) / 256 % 131072)
#define HERRINGNET_SALVAGE_DROPPED(answer) (HERRINGNET_VALUE(answer) / 256 / 131072)

/* The most bytes that a shortcut may have. */
#define HERRINGNET_LONGEST 65536

/* The numbers of answers (FORMAT: Numbers). A position is the first byte of the field found wrong, 65,536 for LONG, the
 * first byte after the terminal block for TRAIL, the entry's number for ENTRY, and 0 from PLACE to NOTARGET, for NOMAP
 * and SHELF, and from 201 on (FORMAT: Positions). */
enum herringnet_number {
    HERRINGNET_OK = 0,
    HERRINGNET_LONG = 1,        /* over 65,536 bytes */
    HERRINGNET_CUT = 2,         /* it is cut off inside a field or a part */
    HERRINGNET_MAGIC = 3,       /* header size or class identifier */
    HERRINGNET_HEAD = 4,        /* another header rule */
    HERRINGNET_ITEMS = 5,       /* item list */
    HERRINGNET_INFO = 6,        /* fixed head of LinkInfo */
    HERRINGNET_PIECE = 7,       /* anything that LinkInfo's offsets lead to */
    HERRINGNET_BLOCK = 8,       /* an extra block */
    HERRINGNET_TRAIL = 9,       /* bytes after the terminal block */
    HERRINGNET_PLACE = 10,      /* a body lies outside the body buffer */
    HERRINGNET_UNWRITABLE = 11, /* no shortcut reads as the record */
    HERRINGNET_ROOM = 12,       /* the room is too short */
    HERRINGNET_NOTARGET = 13,   /* no target text */
    HERRINGNET_TWICE = 14,      /* a block has the known signature of one before it */
    HERRINGNET_STORE = 15,      /* the property store of a block */
    HERRINGNET_NOMAP = 16,      /* a text cannot be moved, or flag bit 7 is already as asked */
    HERRINGNET_SHELF = 17,      /* count, table, lengths or number do not fit a shelf */
    HERRINGNET_ENTRY = 18,      /* an entry of a shelf is refused */
    HERRINGNET_LOST = 19,       /* nothing of the shortcut can be salvaged */
    HERRINGNET_FIELDS = 201,    /* fields are not 51 numbers, or rows not whole rows; tested after PROFILE */
    HERRINGNET_VALUES = 202,    /* a number of fields does not fit its field; tested next */
    HERRINGNET_PROFILE = 203    /* profile is no number of enum herringnet_profile; tested first */
};

/* By which rules a shortcut is read or written (FORMAT: Profiles). What strict accepts 95 accepts, and
 * answers the same. */
enum herringnet_profile {
    HERRINGNET_PROFILE_STRICT = 0,
    HERRINGNET_PROFILE_95 = 1 /* attribute bit 15 is kept, and unused offsets in LinkInfo's own head may hold anything */
};

/* The name of an answer's number, as "CUT"; "OTHER" for a number that this header does not know. */
static inline const char *herringnet_name(unsigned number)
{
    switch (number) {
    case HERRINGNET_OK: return "OK";
    case HERRINGNET_LONG: return "LONG";
    case HERRINGNET_CUT: return "CUT";
    case HERRINGNET_MAGIC: return "MAGIC";
    case HERRINGNET_HEAD: return "HEAD";
    case HERRINGNET_ITEMS: return "ITEMS";
    case HERRINGNET_INFO: return "INFO";
    case HERRINGNET_PIECE: return "PIECE";
    case HERRINGNET_BLOCK: return "BLOCK";
    case HERRINGNET_TRAIL: return "TRAIL";
    case HERRINGNET_PLACE: return "PLACE";
    case HERRINGNET_UNWRITABLE: return "UNWRITABLE";
    case HERRINGNET_ROOM: return "ROOM";
    case HERRINGNET_NOTARGET: return "NOTARGET";
    case HERRINGNET_TWICE: return "TWICE";
    case HERRINGNET_STORE: return "STORE";
    case HERRINGNET_NOMAP: return "NOMAP";
    case HERRINGNET_SHELF: return "SHELF";
    case HERRINGNET_ENTRY: return "ENTRY";
    case HERRINGNET_LOST: return "LOST";
    case HERRINGNET_FIELDS: return "FIELDS";
    case HERRINGNET_VALUES: return "VALUES";
    case HERRINGNET_PROFILE: return "PROFILE";
    default: return "OTHER";
    }
}

/* The names of sections, in the order of the listing (FORMAT: Sections by name). */
enum herringnet_section_name {
    HERRINGNET_SECTION_HEADER = 0,
    HERRINGNET_SECTION_ITEMS = 1,
    HERRINGNET_SECTION_INFO = 2,
    HERRINGNET_SECTION_NAME = 3,
    HERRINGNET_SECTION_RELATIVE = 4,
    HERRINGNET_SECTION_WORKDIR = 5,
    HERRINGNET_SECTION_ARGUMENTS = 6,
    HERRINGNET_SECTION_ICON = 7,
    HERRINGNET_SECTION_BLOCK = 8,
    HERRINGNET_SECTION_END = 9
};

/* The fields of a record, by their place in the slice of 51 numbers (FORMAT: Order of the numbers). A body is a place
 * (AT) and a length (LEN) in the body buffer, both in bytes; no count and no terminator is in it. What is absent counts
 * for nothing in writing, and reading puts 0 there. Present are: the items, LinkInfo and the five strings by bits 0 to
 * 6 of LINK_FLAGS; drive, serial, label and local path by bit 0 of INFO_FLAGS, the network link by bit 1; the device
 * names by bit 0 of NETWORK_FLAGS, the provider by bit 1; the Unicode names by UNICODE, the Unicode local path and
 * suffix by LONG, each only beside its byte twin (FORMAT: Presence). */
enum herringnet_field {
    HERRINGNET_FIELD_LINK_FLAGS = 0,    /* 32 bits */
    HERRINGNET_FIELD_ATTRIBUTES = 1,    /* 32 bits */
    HERRINGNET_FIELD_CREATION = 2,      /* 64 bits, as the next two: tenths of a microsecond since 1601 */
    HERRINGNET_FIELD_ACCESS = 3,
    HERRINGNET_FIELD_WRITE = 4,
    HERRINGNET_FIELD_FILE_SIZE = 5,     /* 32 bits */
    HERRINGNET_FIELD_ICON_INDEX = 6,    /* the 32 bits of the signed number */
    HERRINGNET_FIELD_COMMAND = 7,       /* 32 bits: ShowCommand */
    HERRINGNET_FIELD_HOTKEY = 8,        /* 16 bits */
    HERRINGNET_FIELD_INFO_FLAGS = 9,    /* 32 bits */
    HERRINGNET_FIELD_LONG = 10,         /* 1 for LinkInfo's long head, else 0 */
    HERRINGNET_FIELD_DRIVE = 11,        /* 32 bits */
    HERRINGNET_FIELD_SERIAL = 12,       /* 32 bits */
    HERRINGNET_FIELD_LABEL_KIND = 13,   /* 0 for a byte label, 1 for a Unicode label */
    HERRINGNET_FIELD_NETWORK_FLAGS = 14,/* 32 bits */
    HERRINGNET_FIELD_PROVIDER = 15,     /* 32 bits */
    HERRINGNET_FIELD_UNICODE = 16,      /* 1 where the network link has Unicode names, else 0 */
    HERRINGNET_FIELD_ITEMS_AT = 17,
    HERRINGNET_FIELD_ITEMS_LEN = 18,
    HERRINGNET_FIELD_LABEL_AT = 19,
    HERRINGNET_FIELD_LABEL_LEN = 20,
    HERRINGNET_FIELD_LOCAL_AT = 21,
    HERRINGNET_FIELD_LOCAL_LEN = 22,
    HERRINGNET_FIELD_NET_AT = 23,
    HERRINGNET_FIELD_NET_LEN = 24,
    HERRINGNET_FIELD_DEVICE_AT = 25,
    HERRINGNET_FIELD_DEVICE_LEN = 26,
    HERRINGNET_FIELD_NET_UNICODE_AT = 27,
    HERRINGNET_FIELD_NET_UNICODE_LEN = 28,
    HERRINGNET_FIELD_DEVICE_UNICODE_AT = 29,
    HERRINGNET_FIELD_DEVICE_UNICODE_LEN = 30,
    HERRINGNET_FIELD_SUFFIX_AT = 31,
    HERRINGNET_FIELD_SUFFIX_LEN = 32,
    HERRINGNET_FIELD_LOCAL_UNICODE_AT = 33,
    HERRINGNET_FIELD_LOCAL_UNICODE_LEN = 34,
    HERRINGNET_FIELD_SUFFIX_UNICODE_AT = 35,
    HERRINGNET_FIELD_SUFFIX_UNICODE_LEN = 36,
    HERRINGNET_FIELD_NAME_AT = 37,
    HERRINGNET_FIELD_NAME_LEN = 38,
    HERRINGNET_FIELD_RELATIVE_AT = 39,
    HERRINGNET_FIELD_RELATIVE_LEN = 40,
    HERRINGNET_FIELD_WORKDIR_AT = 41,
    HERRINGNET_FIELD_WORKDIR_LEN = 42,
    HERRINGNET_FIELD_ARGUMENTS_AT = 43,
    HERRINGNET_FIELD_ARGUMENTS_LEN = 44,
    HERRINGNET_FIELD_ICON_AT = 45,
    HERRINGNET_FIELD_ICON_LEN = 46,
    HERRINGNET_FIELD_BLOCKS_AT = 47,
    HERRINGNET_FIELD_BLOCKS_LEN = 48,
    HERRINGNET_FIELD_FURTHER_AT = 49,
    HERRINGNET_FIELD_FURTHER_LEN = 50,
    HERRINGNET_FIELD_COUNT = 51
};

/* Tests a shortcut by all rules (FORMAT: Order of reading). Success: its length. Refusals: 1 to 9, 14, 15. */
uint64_t herringnet_check(const uint8_t *shortcut, size_t shortcut_len, uint32_t profile);

/* The same verdict with the section at fault: HERRINGNET_FAULT_POSITION, and start and name of the section, which is a
 * number of enum herringnet_section_name. A block has its own start. The terminal block is at fault for TRAIL, and
 * where fewer than four bytes stand where a block's size was due. LONG has start 0 and name 0. Success: value 0. */
uint64_t herringnet_fault(const uint8_t *shortcut, size_t shortcut_len, uint32_t profile);

/* Puts the target text into out: local path or net name, and then the suffix; a backslash between them if neither is
 * empty and the first does not end in one. Success: its length. Refusals: as herringnet_check, then NOTARGET, then
 * ROOM. */
uint64_t herringnet_target(const uint8_t *shortcut, size_t shortcut_len, uint8_t *out, size_t out_len,
                           uint32_t profile);

/* Puts the cache key into out: a byte 0 or 1 for bit 7 of LINK_FLAGS, then target text, arguments, working directory
 * and environment, the byte text of the block A0000001 up to its zero. Each of these four is a byte 0 or 1 for its
 * presence, its length in bytes as four bytes, little-endian, and its bytes; one that is absent has length 0. Two
 * accepted shortcuts have equal keys exactly if all this is equal. Success: the key's length, which is never more than
 * shortcut_len. Refusals: as herringnet_check, then ROOM. */
uint64_t herringnet_key(const uint8_t *shortcut, size_t shortcut_len, uint8_t *out, size_t out_len, uint32_t profile);

/* What could name the driver of a shortcut and is not told by its key, a bit each (FORMAT: Blind spots). */
enum herringnet_blind {
    HERRINGNET_BLIND_NAMELESS = 1,     /* no target text and no environment text, but items, relative path or LinkInfo */
    HERRINGNET_BLIND_TARGET = 2,       /* a twin in Unicode of one of the target's texts is not its translation */
    HERRINGNET_BLIND_ENVIRONMENT = 4,  /* the Unicode text of the block A0000001 is not that of its byte text */
    HERRINGNET_BLIND_BLOCK = 8,        /* a block A0000006 or A000000C */
    HERRINGNET_BLIND_STORE = 16        /* the property store has values */
};

/* Success: the sum of the bits that are set. Two shortcuts with equal keys and without the first three bits have equal
 * target text, arguments, working directory and environment texts of both kinds. Refusals: as herringnet_check. */
uint64_t herringnet_key_blind(const uint8_t *shortcut, size_t shortcut_len, uint32_t profile);

/* Moves a shortcut without bit 7 of LINK_FLAGS to one with it, into out: the strings are translated by windows-1252,
 * and a LinkInfo with the short head gets the long one, with both its paths in Unicode. The rest is as it was. Success:
 * the length of the result. Refusals: as herringnet_check, then NOMAP for a byte that is not assigned or a shortcut
 * with the bit, then UNWRITABLE for a result over 65,536 bytes, then ROOM. */
uint64_t herringnet_to_unicode(const uint8_t *shortcut, size_t shortcut_len, uint8_t *out, size_t out_len,
                               uint32_t profile);

/* Moves a shortcut with that bit home to one without it. Its Unicode local path and suffix are dropped. Refusals: as
 * herringnet_check, then NOMAP for a unit that is not in the table, a dropped text that is not the translation of its
 * byte twin or a shortcut without the bit, then UNWRITABLE, then ROOM. */
uint64_t herringnet_to_bytes(const uint8_t *shortcut, size_t shortcut_len, uint8_t *out, size_t out_len,
                             uint32_t profile);

/* Says where a section stands, all of it as listed: HERRINGNET_START and HERRINGNET_LENGTH of the answer. block is the
 * number of a block, from 0, and looked at for that name alone. What is absent, stands in a refused shortcut or has no
 * such name has start 0 and length 0. Refusals: PROFILE alone. */
uint64_t herringnet_section(const uint8_t *shortcut, size_t shortcut_len, uint32_t name, size_t block, uint32_t profile);

/* Puts the record of a shortcut into fields, a slice of HERRINGNET_FIELD_COUNT numbers; its body buffer is the
 * shortcut. Success: the shortcut's length. Refusals: FIELDS, then as herringnet_check. */
uint64_t herringnet_read(const uint8_t *shortcut, size_t shortcut_len, uint64_t *fields, size_t fields_len,
                         uint32_t profile);

/* Writes the shortest shortcut that reads as the record in fields, with its bodies in body, into out. Success: its
 * length. Refusals: FIELDS, VALUES, PLACE, UNWRITABLE, ROOM, in this order. */
uint64_t herringnet_write(const uint64_t *fields, size_t fields_len, const uint8_t *body, size_t body_len,
                          uint8_t *out, size_t out_len, uint32_t profile);

/* The numbers of a row of a property store's list (FORMAT: Store list). A name and raw bytes are a place (AT) and a
 * length (LEN), both in bytes. Numbers that a row does not use are 0 when listed, and count for nothing when written. */
enum herringnet_row {
    HERRINGNET_ROW_KIND = 0,     /* a number of enum herringnet_row_kind */
    HERRINGNET_ROW_NUMBER = 1,   /* of a value by number, 32 bits */
    HERRINGNET_ROW_NAME_AT = 2,  /* of a value by name */
    HERRINGNET_ROW_NAME_LEN = 3,
    HERRINGNET_ROW_RAW_AT = 4,   /* of a value its raw bytes, of a storage its format identifier of 16 bytes */
    HERRINGNET_ROW_RAW_LEN = 5,
    HERRINGNET_ROW_COUNT = 6
};

enum herringnet_row_kind {
    HERRINGNET_ROW_STORAGE = 0,
    HERRINGNET_ROW_BY_NUMBER = 1,
    HERRINGNET_ROW_BY_NAME = 2
};

/* Lists the property store of a shortcut: a row of HERRINGNET_ROW_COUNT numbers for each storage and each value, in
 * order, with places in the shortcut. Success: how many rows; their numbers stand at the front of rows, the others are
 * as they were. A shortcut without the block A0000009 has none. Refusals: as herringnet_check, then ROOM. */
uint64_t herringnet_store_list(const uint8_t *shortcut, size_t shortcut_len, uint64_t *rows, size_t rows_len,
                               uint32_t profile);

/* Writes the property store that rows list, with places in body, into out: the store alone, without the eight bytes of
 * a block. Success: its length. Refusals: FIELDS if rows_len is no multiple of HERRINGNET_ROW_COUNT, PLACE, UNWRITABLE
 * where no store up to 65,448 bytes has this list, ROOM, in this order (FORMAT: Store writing). */
uint64_t herringnet_store_write(const uint64_t *rows, size_t rows_len, const uint8_t *body, size_t body_len,
                                uint8_t *out, size_t out_len);

/* The signatures of the blocks that hold a path in two texts (FORMAT: Path blocks). */
#define HERRINGNET_ENVIRONMENT UINT32_C(0xA0000001)
#define HERRINGNET_DARWIN UINT32_C(0xA0000006)
#define HERRINGNET_ICON_ENVIRONMENT UINT32_C(0xA0000007)

/* Puts the path block of this signature into the record in fields, with its bodies in body, in the stead of one of that
 * signature or after all others, and writes the shortest shortcut that reads as the record so changed into out. text has
 * bytes and unicode has two for a character, both without a terminator. No bit of LinkFlags changes. Success: the length
 * written. Refusals: FIELDS, VALUES, PLACE, UNWRITABLE for another signature, a text with a zero inside or with over 259
 * characters, half a character of unicode, or a record that could not be written before or after, ROOM, in this order
 * (FORMAT: Path block call). */
uint64_t herringnet_path_block(const uint64_t *fields, size_t fields_len, const uint8_t *body, size_t body_len,
                               uint32_t signature, const uint8_t *text, size_t text_len, const uint8_t *unicode,
                               size_t unicode_len, uint8_t *out, size_t out_len, uint32_t profile);

/* Tests all of a shelf: a count of at most HERRINGNET_MOST_ENTRIES, a table of start and length for each entry, the
 * entries end to end up to the file's end, each of them a shortcut that herringnet_check accepts as strict (FORMAT:
 * Shelf tests). No function of the shelf takes a profile. All numbers have four bytes. Success: the number of entries.
 * Refusals: SHELF, then ENTRY with the number of the first bad entry, from 0, as its value. */
uint64_t herringnet_shelf_check(const uint8_t *shelf, size_t shelf_len);

/* Says where the entry of this number, from 0, stands: HERRINGNET_ENTRY_START and HERRINGNET_ENTRY_LENGTH of the answer.
 * It tests all of the shelf, as every call on one but the next does. Refusals: SHELF, also for a number that is not on
 * the shelf, then ENTRY. */
uint64_t herringnet_shelf_entry(const uint8_t *shelf, size_t shelf_len, size_t number);

/* The same wherever herringnet_shelf_entry accepts. It tests the whole table, and then of the entries the one asked for
 * alone, so that one is found without reading the others. Refusals: SHELF as there, then ENTRY with this number. */
uint64_t herringnet_shelf_one(const uint8_t *shelf, size_t shelf_len, size_t number);

/* Writes a shelf into out. The bodies of its entries stand end to end, and lengths has a number for each of them.
 * Success: its length. Refusals: SHELF for more than HERRINGNET_MOST_ENTRIES lengths or where their sum, which does not
 * wrap, is not bodies_len; ENTRY; ROOM, in this order. */
uint64_t herringnet_shelf_build(const uint64_t *lengths, size_t lengths_len, const uint8_t *bodies, size_t bodies_len,
                                uint8_t *out, size_t out_len);

/* Writes the shelf of a file in the old form, a length of four bytes and the shortcut, again and again, into out.
 * Success: its length. Refusals: SHELF for a length that is cut or passes the file's end and for more than
 * HERRINGNET_MOST_ENTRIES entries; ENTRY; ROOM, in this order. */
uint64_t herringnet_shelf_from_old(const uint8_t *old, size_t old_len, uint8_t *out, size_t out_len);

/* Writes the old form of a shelf into out. Success: its length. Refusals: as herringnet_shelf_check, then ROOM. */
uint64_t herringnet_shelf_to_old(const uint8_t *shelf, size_t shelf_len, uint8_t *out, size_t out_len);

/* Puts what can be saved of a shortcut into out, as strict: an accepted one as it is; one that is refused with TRAIL
 * without the bytes behind its terminal block; one that is refused with CUT, BLOCK, TWICE or STORE at a block, or for
 * want of a terminal block, up to there, with a zero terminal of four bytes behind it. What is written is accepted. Success:
 * HERRINGNET_SALVAGE_WAS, and the bytes that were kept and dropped, shortcut_len in all; what is written is as long as
 * what is kept, and four bytes longer if the shortcut was refused with CUT, BLOCK, TWICE or STORE. Refusals: LOST for
 * every other shortcut and where the result would be over HERRINGNET_LONGEST bytes, then ROOM (FORMAT: Salvage). */
uint64_t herringnet_salvage(const uint8_t *shortcut, size_t shortcut_len, uint8_t *out, size_t out_len);

#ifdef __cplusplus
}
#endif

#endif
