/* The 486 cache and bus unit, for a host in C (C11) or C++ (C++17). The rules are document 01's; those of
   the test calls, of carried writes, of a flush, of eight-byte operands, of loaded block tables and of
   read-only ranges are document 02's, requests C-11, C-12 and C-14 to C-17.

   Link with crates/host/out/libhost.a, which `rt lib` in crates/host writes for x86-64; a host that calls
   unit486_run links crates/program/out/libprogram.a too, which `rt lib` in crates/program writes. The unit
   keeps nothing between calls: each works on what the caller lends it for the time of that call, so that
   calls on different directories and buffers may run at the same time.

   VERSION. Before its first call a host compares unit486_version() with UNIT486_VERSION: an archive of
   another version may have another layout, and nothing below is said of it.

   NAMES. unit486_X is the call X on a whole directory, which it changes in place. unit486_X_in_place is
   the same call on the directory's arrays; unit486_X makes it, inline. unit486_X_by_value takes and
   gives whole directories, as copies. A call that is lent no directory has its plain name.
   unit486_load_table changes the table that it is lent; unit486_load_table_by_value leaves that as it is and
   gives the table in force, as a copy.

   WHO OWNS WHAT. All of it is the caller's:

     directory   unit486_directory; zero bytes at first (`unit486_directory d = {0};`), since a reset keeps
                 the ranges; its first call is unit486_reset (CD = NW = 1, nothing held)
     RAM         16 to 16,777,216 bytes, a multiple of 16
     parity      one byte for each four bytes of RAM; bits 0 to 3 are DP0 to DP3, even parity. Zero bytes
                 agree with zero parity; a host that loads RAM itself sets the parity too, or loads by
                 external writes. Wrong parity sets UNIT486_FLAG_WRONG_PARITY and never alters data
     data array  8,192 bytes: the line of a set and a way stands from (set * 4 + way) * 16
     answers     48 bytes, one for each cycle: 1 for KEN# + 2 for BS8# + 4 for BS16#; 0 to 15 serve the
                 lowest doubleword of an access, 16 to 31 the next one, 32 to 47 the third. All are lent,
                 and tested, for every width; those of a doubleword that is not touched serve no cycle
     table       16 bytes, the board's answer for each block of 1 MiB: that of an address is number
                 (address / 1,048,576) mod 16. A host begins with unit486_block_answers
     log         144 words or more for every width; each cycle leaves three: doubleword address, flags, and
                 data, where byte k of the doubleword stands in bits 8k to 8k + 7 and unmoved bytes are 0.
                 Words from 3 * cycles on are unchanged

   An access of 1, 2, 4 or 8 bytes touches up to three aligned doublewords, in two lines at most. They are
   served in ascending order, each completed before the next is looked up.

   What a call may change is lent by a pointer that is not const. Lengths are in elements; a call with a
   wrong one is refused by its number. Each pointer is aligned as its type asks, not null even where its
   length is 0, and there for its whole length; nothing that a call may change overlaps anything else lent
   to it. After the call all of it is the caller's again.

   NUMBERS. Each call but those that are never refused answers one of enum unit486_number. 0: done. Else
   nothing lent has changed, the directory is as it was given, and value and count are 0. Lowest first, but
   33, 37 and 38 come after 10 and before 21: 1 to 10, 33, 37, 38, 21 to 23. Where several sets are touched,
   all of one comes before the next: the access's own sets, the lower address's first, then those of carried
   writes in list order. Each only from calls that receive the thing. A test call answers 3, 31 or 32, lowest
   first; a load 34, 35 or 36, as told below.

   CARRIED WRITES, for fieldbus cards, which write while a line is coming in. unit486_read_carrying is
   unit486_read with up to four external writes that land during it, each numbered by the cycle before which
   it does; with none it is unit486_read. Cycles count from 0 over the access, through all its doublewords.
   Before a cycle moves its bytes, the writes numbered up to it that have not landed land, in list order:
   bytes and parity into RAM, then a snoop, which changes nothing with NW = 1. Each byte, each record and
   its UNIT486_FLAG_WRONG_PARITY are of RAM as it is at that cycle. The writes leave no record.

     lookup      comes before the writes at the number of the doubleword's first cycle land. A hit makes no
                 cycle, so nothing lands for it, and its bytes are those of the data array then
     fill        a write at the number of its first cycle leaves it valid, and it brings those bytes in. One
                 at the number of a later cycle of it, in the line being filled, drops it, with NW = 1 too:
                 cycles and flags are as ever, and the line is not held
     victim      is chosen after the fill's last cycle, so after the snoops of what has landed
     the rest    numbered past the last cycle, and all where there is none, lands after the value is taken

   A host that compares the calls with a memory of its own puts each write into it before the cycle of its
   number, and what is left at the end: a wanted byte is what that memory holds at the cycle that moves it,
   or at the lookup for a hit. The records tell where the cycles fall: each doubleword that missed has a
   group of them, which ends with UNIT486_FLAG_LAST and starts at the doubleword's own address.

   READ-ONLY RANGES, for guests that write into their boot ROM to test for it. The directory keeps up to eight
   ranges of whole lines, none at first, in which RAM and parity ignore writes: those of the CPU, those of
   other masters and carried ones. It goes by bytes: of a write that crosses the edge of a range the bytes
   outside it land. A parity byte there stays whole, its upper four bits too. All else goes on: cycles and
   their records, which have the written data, snoops, uses, dropped fills, and the data array on a write hit.

   unit486_set_ranges sets them all anew; ranges may overlap. Refused, it leaves those that were there: by 37
   where a given range is empty, not whole lines or beyond RAM, whatever their count, then by 38 where they
   are more than eight. start + length is a sum of 64 bits. Each other call that receives directory and RAM
   tests the directory's ranges against that RAM, by 37 the first eight of its count, then by 38 the count;
   what stands past the count is not looked at. So set ranges refuse a call only if it is lent a shorter RAM.

   No other call changes them, and a reset keeps them: a directory of zero bytes is the one that has none.

   Since a write hit alters the held line and not RAM, the line then has bytes that memory never had. That
   reads agree with a memory which ignores the same writes needs KEN# inactive throughout the ranges, so that
   no line of them comes in, and the ranges set right after the reset and not altered from there on.

   BLOCK TABLES, for plants whose board does not answer as document 01's does. A load reads the plant's table
   from a text of sixteen lines, each a block and its answer, parted by a tab, blocks ascending from 0. A
   number has 1 to 10 decimal digits, up to 4,294,967,295; the newline of the last line is optional. The text
   may have any length, and is checked whole before the table changes. 34 to 36, which only a load answers,
   are of the earliest bad line, and the lowest of them there: 36 in line 3 comes before 34 in line 5. A
   missing line is bad in its place, after the lines that are there; any seventeenth, also an empty one, is
   bad. Loaded: each block has exactly the answer on its line. Refused: the table is as it was, whatever bytes
   it holds.

   TEST CALLS, for diagnostic disks, which load cache lines by hand and read them back. Both work only with
   CD = 1 and look at no state of a set, so that a disk sees what the directory holds, ill formed or not.
   A planted line may have bytes that RAM never held, or a tag that its set holds already: 21 then refuses
   the reads, writes, external writes, snoops and views of that set. So a host that compares the calls with
   a memory of its own suspends this after each accepted test write, also after one of an invalid line,
   until the next flush or reset; from there it compares again, with a memory begun anew from RAM and from the
   directory's ranges as they then are. */

#ifndef UNIT486_H
#define UNIT486_H

#include <assert.h>
#include <stdbool.h>
#include <stddef.h>
#include <stdint.h>

#ifdef __cplusplus
extern "C" {
#endif

/* Of this header's layout and calls. */
#define UNIT486_VERSION 11

enum {
    UNIT486_SETS = 128,
    UNIT486_WAYS = 4,
    UNIT486_LINES = 512,
    UNIT486_LINE_BYTES = 16,
    UNIT486_TAG_MOST = 2097151,
    UNIT486_DATA_BYTES = 8192,
    UNIT486_RAM_LEAST = 16,
    UNIT486_RAM_MOST = 16777216,
    UNIT486_ANSWERS = 48,
    UNIT486_LOG_WORDS = 144,
    UNIT486_BLOCKS = 16,          /* answers of a block table */
    UNIT486_CARRIED_MOST = 4,     /* external writes that a read may carry */
    UNIT486_RANGES_MOST = 8,      /* read-only ranges of a directory */
    UNIT486_INPUT_MOST = 65536,   /* bytes of event lines that unit486_run runs */
    UNIT486_OUTPUT_MOST = 3539024 /* bytes that are enough for the output of every input */
};

enum unit486_number {
    UNIT486_DONE = 0,
    UNIT486_WRONG_RAM_LENGTH = 1,
    UNIT486_WRONG_PARITY_LENGTH = 2,   /* not RAM / 4 */
    UNIT486_WRONG_DATA_LENGTH = 3,     /* not 8,192 bytes */
    UNIT486_WRONG_WIDTH = 4,           /* not 1, 2, 4 or 8 */
    UNIT486_BEYOND_RAM = 5,            /* address + width is beyond RAM; a view: the address is not in RAM */
    UNIT486_WRONG_ANSWERS = 6,         /* not 48 answers, or one above 7 */
    UNIT486_SHORT_LOG = 7,             /* below 144 words */
    UNIT486_LARGE_VALUE = 8,           /* too large for its width */
    UNIT486_WRONG_CONTROL = 9,         /* CD = 0 and NW = 1 */
    UNIT486_WRONG_EXTERNAL_WRITE = 10, /* empty, over 16 bytes, across lines, or beyond RAM */
    UNIT486_MALFORMED_LINE = 11,       /* this and the next are in the rows of unit486_run only */
    UNIT486_LONG_INPUT = 12,           /* over 65,536 bytes */
    UNIT486_TWO_OF_ONE_TAG = 21,       /* valid lines of a touched set */
    UNIT486_LARGE_TAG = 22,            /* a valid tag of a touched set is above 2,097,151 */
    UNIT486_LARGE_LRU = 23,            /* the LRU number of a touched set is above 7 */
    UNIT486_TEST_WITH_CD_0 = 31,       /* this and the next from test calls only */
    UNIT486_WRONG_TEST_LINE = 32,      /* set above 127, way above 3, or a test write's tag above 2,097,151 */
    UNIT486_WRONG_CARRIED_WRITES = 33, /* more than four, not in cycle order, or one that 10 would refuse */
    UNIT486_WRONG_TABLE_LINE = 34,     /* malformed, missing, seventeenth; this and the next two from loads */
    UNIT486_WRONG_TABLE_BLOCK = 35,    /* of a line: not its place from 0, as a repeated one is not */
    UNIT486_LARGE_TABLE_ANSWER = 36,   /* of a line: above 7 */
    UNIT486_WRONG_RANGE = 37,          /* empty, not whole lines, or beyond RAM */
    UNIT486_TOO_MANY_RANGES = 38       /* over eight */
};

/* Bits of an answer. */
enum { UNIT486_KEN = 1, UNIT486_BS8 = 2, UNIT486_BS16 = 4 };

/* Flags of a cycle. */
enum {
    UNIT486_FLAG_BYTE0 = 1, /* moved bytes of the doubleword */
    UNIT486_FLAG_BYTE1 = 2,
    UNIT486_FLAG_BYTE2 = 4,
    UNIT486_FLAG_BYTE3 = 8,
    UNIT486_FLAG_WRITE = 16,
    UNIT486_FLAG_FILL = 32,
    UNIT486_FLAG_LAST = 64,         /* made for this doubleword of the access; in a fill only its very last */
    UNIT486_FLAG_WRONG_PARITY = 128 /* in a moved byte, of a read */
};

/* A range of RAM: so many bytes from its start on. */
typedef struct unit486_range {
    uint32_t start;
    uint32_t length;
} unit486_range;

/* The first `count` of them are read-only. */
typedef struct unit486_ranges {
    uint32_t count;
    unit486_range ranges[8];
} unit486_ranges;

/* The line of a set and a way is element set * 4 + way of tags and valid. Whoever stores into valid, cd
   or nw stores 0 or 1. A host that keeps the directory between calls need not look into it. */
typedef struct unit486_directory {
    uint32_t tags[512];
    bool valid[512];
    uint8_t lru[128]; /* B0 + 2 * B1 + 4 * B2 of each set */
    bool cd;
    bool nw;
    unit486_ranges ranges;
} unit486_directory;

/* What a call by value answers. */
typedef struct unit486_outcome {
    unit486_directory directory;
    uint32_t number;
    uint64_t value;
    uint32_t cycles;
} unit486_outcome;

/* What a read or a write answers: the number, the count of cycles, a read's value. */
typedef struct unit486_result {
    uint32_t number;
    uint32_t cycles;
    uint64_t value;
} unit486_result;

/* What a test read answers: the number, and the line with the LRU number of its set. Refused: zeros and an
   invalid mark. */
typedef struct unit486_test_line {
    uint32_t number;
    uint32_t tag;
    bool valid;
    uint8_t lru;
    uint8_t bytes[16];
} unit486_test_line;

/* The external writes that a read carries: the first `count` elements of each array; those from there on are
   not looked at. Write k lands before cycle cycles[k] and puts the first lengths[k] of bytes[k] into RAM from
   addresses[k] on. A number is not smaller than the one before it. */
typedef struct unit486_carried_writes {
    uint32_t count;
    uint32_t cycles[4];
    uint32_t addresses[4];
    uint32_t lengths[4];
    uint8_t bytes[4][16];
} unit486_carried_writes;

/* What a load by value answers: the table in force, which is the given one where the load was refused, and
   the number. */
typedef struct unit486_loaded_table {
    uint8_t table[16];
    uint32_t number;
} unit486_loaded_table;

static_assert(sizeof(bool) == 1, "a valid mark is one byte");
static_assert(offsetof(unit486_range, start) == 0, "layout of a range");
static_assert(offsetof(unit486_range, length) == 4, "layout of a range");
static_assert(sizeof(unit486_range) == 8, "layout of a range");
static_assert(offsetof(unit486_ranges, count) == 0, "layout of ranges");
static_assert(offsetof(unit486_ranges, ranges) == 4, "layout of ranges");
static_assert(sizeof(unit486_ranges) == 68, "layout of ranges");
static_assert(offsetof(unit486_directory, tags) == 0, "layout of the directory");
static_assert(offsetof(unit486_directory, valid) == 2048, "layout of the directory");
static_assert(offsetof(unit486_directory, lru) == 2560, "layout of the directory");
static_assert(offsetof(unit486_directory, cd) == 2688, "layout of the directory");
static_assert(offsetof(unit486_directory, nw) == 2689, "layout of the directory");
static_assert(offsetof(unit486_directory, ranges) == 2692, "layout of the directory");
static_assert(sizeof(unit486_directory) == 2760, "layout of the directory");
static_assert(offsetof(unit486_outcome, number) == 2760, "layout of an outcome");
static_assert(offsetof(unit486_outcome, value) == 2768, "layout of an outcome");
static_assert(offsetof(unit486_outcome, cycles) == 2776, "layout of an outcome");
static_assert(sizeof(unit486_outcome) == 2784, "layout of an outcome");
static_assert(offsetof(unit486_result, number) == 0, "layout of a result");
static_assert(offsetof(unit486_result, cycles) == 4, "layout of a result");
static_assert(offsetof(unit486_result, value) == 8, "layout of a result");
static_assert(sizeof(unit486_result) == 16, "layout of a result");
static_assert(offsetof(unit486_test_line, number) == 0, "layout of a test line");
static_assert(offsetof(unit486_test_line, tag) == 4, "layout of a test line");
static_assert(offsetof(unit486_test_line, valid) == 8, "layout of a test line");
static_assert(offsetof(unit486_test_line, lru) == 9, "layout of a test line");
static_assert(offsetof(unit486_test_line, bytes) == 10, "layout of a test line");
static_assert(sizeof(unit486_test_line) == 28, "layout of a test line");
static_assert(offsetof(unit486_carried_writes, count) == 0, "layout of carried writes");
static_assert(offsetof(unit486_carried_writes, cycles) == 4, "layout of carried writes");
static_assert(offsetof(unit486_carried_writes, addresses) == 20, "layout of carried writes");
static_assert(offsetof(unit486_carried_writes, lengths) == 36, "layout of carried writes");
static_assert(offsetof(unit486_carried_writes, bytes) == 52, "layout of carried writes");
static_assert(sizeof(unit486_carried_writes) == 116, "layout of carried writes");
static_assert(offsetof(unit486_loaded_table, table) == 0, "layout of a loaded table");
static_assert(offsetof(unit486_loaded_table, number) == 16, "layout of a loaded table");
static_assert(sizeof(unit486_loaded_table) == 20, "layout of a loaded table");

/* A pointer and its length stand together below. */
/* clang-format off */

/* ---- The libraries' functions. tags and valid have 512 elements each, lru has 128, table has 16; bounds
   has 16 words, start and length of each of the directory's eight ranges in turn. ---- */

/* The UNIT486_VERSION of libhost.a. Every version has this call. */
uint32_t unit486_version(void);

/* A read of 1, 2, 4 or 8 bytes, little-endian; they may lie in three doublewords and in two lines. A
   doubleword that misses fills its line where cd = 0, pcd = 0 and its first cycle has KEN#; the fill is kept
   where its last has it too. */
unit486_result unit486_read_in_place(
    uint32_t *tags, bool *valid, uint8_t *lru, bool cd, uint32_t range_count, const uint32_t *bounds,
    const uint8_t *ram, size_t ram_length, const uint8_t *parity, size_t parity_length,
    uint8_t *data, size_t data_length, uint32_t address, uint32_t width, bool pcd,
    const uint8_t *answers, size_t answers_length, uint32_t *log, size_t log_length);

/* The same read with the external writes that land during it: into RAM and parity, each with its snoop.
   0 to 7, 33, 37, 38, or 21 to 23. */
unit486_result unit486_read_carrying_in_place(
    uint32_t *tags, bool *valid, uint8_t *lru, bool cd, bool nw,
    uint32_t range_count, const uint32_t *bounds,
    uint8_t *ram, size_t ram_length, uint8_t *parity, size_t parity_length,
    uint8_t *data, size_t data_length, uint32_t address, uint32_t width, bool pcd,
    const uint8_t *answers, size_t answers_length, uint32_t *log, size_t log_length,
    unit486_carried_writes carried);

/* A write of 1, 2, 4 or 8 bytes, little-endian: through to RAM and, where a doubleword hits, into the data
   array; with CD = NW = 1 what hits stays in the data array. RAM and parity of a range ignore it. */
unit486_result unit486_write_in_place(
    const uint32_t *tags, const bool *valid, uint8_t *lru, bool cd, bool nw,
    uint32_t range_count, const uint32_t *bounds,
    uint8_t *ram, size_t ram_length, uint8_t *parity, size_t parity_length,
    uint8_t *data, size_t data_length, uint32_t address, uint32_t width, uint64_t value,
    const uint8_t *answers, size_t answers_length, uint32_t *log, size_t log_length);

/* Another master's write of 1 to 16 bytes of one line into RAM, where no range has the line, then a snoop.
   It leaves no record. */
uint32_t unit486_external_write_in_place(
    const uint32_t *tags, bool *valid, const uint8_t *lru, bool nw,
    uint32_t range_count, const uint32_t *bounds,
    uint8_t *ram, size_t ram_length, uint8_t *parity, size_t parity_length,
    uint32_t address, const uint8_t *bytes, size_t bytes_length);

/* A snoop: the line that holds the address becomes invalid unless NW = 1. Any address is taken. 0, or 21
   to 23. */
uint32_t unit486_snoop_in_place(
    const uint32_t *tags, bool *valid, const uint8_t *lru, bool nw, uint32_t address);

/* A flush: clears the 512 valid marks and zeroes the 128 LRU numbers; tags, CD and NW stay. Never refused. */
void unit486_flush_in_place(bool *valid, uint8_t *lru);

/* CD and NW as given, or 9. With NW = 1 a snoop drops nothing, so that held lines may go stale: that reads
   agree with memory is not claimed then. */
uint32_t unit486_control_in_place(bool *cd, bool *nw, bool new_cd, bool new_nw);

/* All 512 lines invalid, tags and LRU numbers 0, CD = NW = 1, whatever was there before; the ranges stay.
   Never refused. */
void unit486_reset_in_place(uint32_t *tags, bool *valid, uint8_t *lru, bool *cd, bool *nw);

/* The directory's read-only ranges, all anew: ranges has start and length of each in turn, so that its length
   is twice their count; a last word without a length is a range that is empty. The words of bounds that are
   left over become 0. Of RAM only the length is looked at. 0, 1, 37 or 38. */
uint32_t unit486_set_ranges_in_place(
    uint32_t *range_count, uint32_t *bounds, const uint8_t *ram, size_t ram_length,
    const uint32_t *ranges, size_t ranges_length);

/* A line view: the sixteen bytes around the address, of the data array where the line is held,
   otherwise of RAM, copied into shown. The copy is of this moment: later calls do not change it, and
   storing into it changes neither the data array nor RAM. A view is no use of the line. shown has room for
   sixteen bytes. Answers the view's number; where it is not 0, shown is unchanged. */
uint32_t unit486_view_in_place(
    const uint32_t *tags, const bool *valid, const uint8_t *lru,
    uint32_t range_count, const uint32_t *bounds,
    const uint8_t *ram, size_t ram_length, const uint8_t *data, size_t data_length, uint32_t address,
    uint8_t *shown);

/* The number of a line view: 1, 3, 5, 37, 38, 21 to 23, or 0. */
uint32_t unit486_view_number_in_place(
    const uint32_t *tags, const bool *valid, const uint8_t *lru,
    uint32_t range_count, const uint32_t *bounds,
    const uint8_t *ram, size_t ram_length, const uint8_t *data, size_t data_length, uint32_t address);

/* A test write: the tag, the valid mark and sixteen bytes into the line of a set and a way, whatever was
   there. It changes neither the LRU number nor the other lines, and receives neither RAM nor parity. bytes
   has sixteen. 0, 3, 31 or 32. */
uint32_t unit486_test_write_in_place(
    uint32_t *tags, bool *valid, bool cd, uint8_t *data, size_t data_length,
    uint32_t set, uint32_t way, uint32_t tag, bool mark, const uint8_t *bytes);

/* A test read: the line of a set and a way, valid or not, with the set's LRU number, as they are. It is no
   use of the line. 0, 3, 31 or 32. */
unit486_test_line unit486_test_read_in_place(
    const uint32_t *tags, const bool *valid, const uint8_t *lru, bool cd,
    const uint8_t *data, size_t data_length, uint32_t set, uint32_t way);

/* Control, reset and the setting of ranges that give a whole directory, to be stored by the caller: refused,
   the given one. */
unit486_outcome unit486_control_by_value(unit486_directory given, bool cd, bool nw);
unit486_outcome unit486_reset_by_value(unit486_directory given);
unit486_outcome unit486_set_ranges_by_value(
    unit486_directory given, const uint8_t *ram, size_t ram_length,
    const uint32_t *ranges, size_t ranges_length);

/* The same snoop as unit486_snoop, by way of copies of the directory: document 01's thin call. */
uint32_t unit486_drop_line(unit486_directory *directory, uint32_t address);

/* Document 01's sixteen answers into table, which has room for 16: those of the program unit486. Never
   refused. */
void unit486_block_answers(uint8_t *table);

/* The sixteen answers of a text into table, or 34 to 36 and table as it was. */
uint32_t unit486_load_table(uint8_t *table, const uint8_t *text, size_t text_length);

/* The same load, which gives the table in force: the sixteen answers of the text or, refused, those of
   table. */
unit486_loaded_table unit486_load_table_by_value(
    const uint8_t *table, const uint8_t *text, size_t text_length);

/* The 48 answers that a board with this table has for an access, into answers, which has room for 48: for
   each doubleword sixteen times that of its block. Where the access has no second or no third doubleword,
   those sixteen are the lowest's. Never refused; for a width other than 1, 2, 4 and 8 all 48 are the answer
   of the address's own block. What stands in the table is given as it is: an access that gets an answer
   above 7 answers 6. */
void unit486_board_answers(const uint8_t *table, uint32_t address, uint32_t width, uint8_t *answers);

/* The event program on lines in memory and on a board with this table, in libprogram.a: puts as much of the
   output as fits, answers its whole length (at most UNIT486_OUTPUT_MOST). Bytes past the output are
   unchanged. Its RAM is in block 0: where the table's answer there is above 7, each R and W line that meets
   neither 4 nor 5 has 6. The program's own RAM, parity, data array and directory are on the stack, some
   93 KB: give a thread 128 KB or more. */
size_t unit486_run(
    const uint8_t *table, const uint8_t *input, size_t input_length, uint8_t *output, size_t output_length);

#ifdef __cplusplus
}
#endif

/* ---- The calls on a whole directory. None copies it. ---- */

/* The buffers that a host lends again and again. */
typedef struct unit486_buffers {
    uint8_t *ram;
    size_t ram_length;
    uint8_t *parity;
    size_t parity_length;
    uint8_t *data;
    size_t data_length;
} unit486_buffers;

static inline unit486_result unit486_read(
    unit486_directory *directory, unit486_buffers *lent, uint32_t address, uint32_t width, bool pcd,
    const uint8_t *answers, size_t answers_length, uint32_t *log, size_t log_length)
{
    return unit486_read_in_place(
        directory->tags, directory->valid, directory->lru, directory->cd,
        directory->ranges.count, &directory->ranges.ranges[0].start,
        lent->ram, lent->ram_length, lent->parity, lent->parity_length, lent->data, lent->data_length,
        address, width, pcd, answers, answers_length, log, log_length);
}

static inline unit486_result unit486_read_carrying(
    unit486_directory *directory, unit486_buffers *lent, uint32_t address, uint32_t width, bool pcd,
    const uint8_t *answers, size_t answers_length, uint32_t *log, size_t log_length,
    const unit486_carried_writes *carried)
{
    return unit486_read_carrying_in_place(
        directory->tags, directory->valid, directory->lru, directory->cd, directory->nw,
        directory->ranges.count, &directory->ranges.ranges[0].start,
        lent->ram, lent->ram_length, lent->parity, lent->parity_length, lent->data, lent->data_length,
        address, width, pcd, answers, answers_length, log, log_length, *carried);
}

static inline unit486_result unit486_write(
    unit486_directory *directory, unit486_buffers *lent, uint32_t address, uint32_t width, uint64_t value,
    const uint8_t *answers, size_t answers_length, uint32_t *log, size_t log_length)
{
    return unit486_write_in_place(
        directory->tags, directory->valid, directory->lru, directory->cd, directory->nw,
        directory->ranges.count, &directory->ranges.ranges[0].start,
        lent->ram, lent->ram_length, lent->parity, lent->parity_length, lent->data, lent->data_length,
        address, width, value, answers, answers_length, log, log_length);
}

/* Receives RAM and parity; the data array in lent is not looked at. */
static inline uint32_t unit486_external_write(
    unit486_directory *directory, unit486_buffers *lent, uint32_t address,
    const uint8_t *bytes, size_t bytes_length)
{
    return unit486_external_write_in_place(
        directory->tags, directory->valid, directory->lru, directory->nw,
        directory->ranges.count, &directory->ranges.ranges[0].start,
        lent->ram, lent->ram_length, lent->parity, lent->parity_length, address, bytes, bytes_length);
}

static inline uint32_t unit486_snoop(unit486_directory *directory, uint32_t address)
{
    return unit486_snoop_in_place(
        directory->tags, directory->valid, directory->lru, directory->nw, address);
}

static inline void unit486_flush(unit486_directory *directory)
{
    unit486_flush_in_place(directory->valid, directory->lru);
}

static inline uint32_t unit486_control(unit486_directory *directory, bool cd, bool nw)
{
    return unit486_control_in_place(&directory->cd, &directory->nw, cd, nw);
}

static inline void unit486_reset(unit486_directory *directory)
{
    unit486_reset_in_place(
        directory->tags, directory->valid, directory->lru, &directory->cd, &directory->nw);
}

/* The directory's read-only ranges, all anew. Of RAM only the length is looked at. */
static inline uint32_t unit486_set_ranges(
    unit486_directory *directory, const uint8_t *ram, size_t ram_length,
    const unit486_range *ranges, size_t count)
{
    return unit486_set_ranges_in_place(
        &directory->ranges.count, &directory->ranges.ranges[0].start, ram, ram_length,
        &ranges->start, 2 * count);
}

/* Sixteen bytes into shown. Receives RAM and the data array; the parity array in lent is not looked at. */
static inline uint32_t unit486_view(
    const unit486_directory *directory, const unit486_buffers *lent, uint32_t address, uint8_t *shown)
{
    return unit486_view_in_place(
        directory->tags, directory->valid, directory->lru,
        directory->ranges.count, &directory->ranges.ranges[0].start,
        lent->ram, lent->ram_length, lent->data, lent->data_length, address, shown);
}

static inline uint32_t unit486_view_number(
    const unit486_directory *directory, const unit486_buffers *lent, uint32_t address)
{
    return unit486_view_number_in_place(
        directory->tags, directory->valid, directory->lru,
        directory->ranges.count, &directory->ranges.ranges[0].start,
        lent->ram, lent->ram_length, lent->data, lent->data_length, address);
}

/* The test calls receive the data array; RAM and the parity array in lent are not looked at. */
static inline uint32_t unit486_test_write(
    unit486_directory *directory, unit486_buffers *lent, uint32_t set, uint32_t way, uint32_t tag, bool mark,
    const uint8_t *bytes)
{
    return unit486_test_write_in_place(
        directory->tags, directory->valid, directory->cd, lent->data, lent->data_length,
        set, way, tag, mark, bytes);
}

static inline unit486_test_line unit486_test_read(
    const unit486_directory *directory, const unit486_buffers *lent, uint32_t set, uint32_t way)
{
    return unit486_test_read_in_place(
        directory->tags, directory->valid, directory->lru, directory->cd, lent->data, lent->data_length,
        set, way);
}
/* clang-format on */

/* A number in words. */
static inline const char *unit486_number_text(uint32_t number)
{
    switch (number) {
    case UNIT486_DONE: return "done";
    case UNIT486_WRONG_RAM_LENGTH: return "RAM is not 16 to 16,777,216 bytes, a multiple of 16";
    case UNIT486_WRONG_PARITY_LENGTH: return "the parity array is not a fourth of RAM";
    case UNIT486_WRONG_DATA_LENGTH: return "the data array is not 8,192 bytes";
    case UNIT486_WRONG_WIDTH: return "the width is not 1, 2, 4 or 8";
    case UNIT486_BEYOND_RAM: return "beyond RAM";
    case UNIT486_WRONG_ANSWERS: return "not 48 answers, or one above 7";
    case UNIT486_SHORT_LOG: return "the log is below 144 words";
    case UNIT486_LARGE_VALUE: return "the value is too large for its width";
    case UNIT486_WRONG_CONTROL: return "control with CD = 0 and NW = 1";
    case UNIT486_WRONG_EXTERNAL_WRITE:
        return "external write empty, over 16 bytes, across lines or beyond RAM";
    case UNIT486_MALFORMED_LINE: return "malformed line";
    case UNIT486_LONG_INPUT: return "over 65,536 bytes of input";
    case UNIT486_TWO_OF_ONE_TAG: return "two valid lines of a set have one tag";
    case UNIT486_LARGE_TAG: return "a valid tag is above 2,097,151";
    case UNIT486_LARGE_LRU: return "an LRU number is above 7";
    case UNIT486_TEST_WITH_CD_0: return "test call with CD = 0";
    case UNIT486_WRONG_TEST_LINE:
        return "test call with a set above 127, a way above 3 or a tag above 2,097,151";
    case UNIT486_WRONG_CARRIED_WRITES:
        return "over 4 carried writes, out of cycle order, or one that 10 would refuse";
    case UNIT486_WRONG_TABLE_LINE: return "a line of the table is malformed, missing or the seventeenth";
    case UNIT486_WRONG_TABLE_BLOCK: return "a block of the table is wrong or repeated";
    case UNIT486_LARGE_TABLE_ANSWER: return "an answer of the table is above 7";
    case UNIT486_WRONG_RANGE: return "a read-only range is empty, not whole lines or beyond RAM";
    case UNIT486_TOO_MANY_RANGES: return "over 8 read-only ranges";
    default: return "no number of this unit";
    }
}

#endif
