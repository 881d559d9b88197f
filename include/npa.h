/*
 * The settlement module, for callers in C (C99 and later) and C++ (C++11 and later). docs/FORMATS.md has the layout of
 * every buffer, docs/OPERATING.md says how a ledger is kept.
 *
 * A call is lent byte buffers, each a pointer and a length in bytes, at any address. It answers NPA_OK or
 * the first refusal, in the order below, that applies; npa_event has an order of its own.
 *
 * The caller guarantees, for every call:
 * - each length is true, and no pointer is null, also where the length is 0. The data() of an empty C++ vector may be
 *   null, and so may malloc(0): lend the address of any byte with the length 0 instead;
 * - the buffers do not overlap, and nobody else touches them until the call answers.
 *
 * The module guarantees:
 * - it reads and writes only within the lengths given, and writes nothing that is lent as const;
 * - a refused npa_open or npa_settle leaves every byte as it was. A refused npa_event writes nothing of the refused
 *   file; what it settled before remains;
 * - bytes of a ledger beyond its last account, of a result beyond its last row, and of a count beyond its
 *   NPA_COUNT_BYTES are never written;
 * - it keeps no state between calls, allocates nothing and calls nothing but memcpy and its like, so calls on different
 *   ledgers, each with buffers of its own, may run at once in any number of threads;
 * - a call uses at most NPA_STACK_MOST bytes of stack.
 *
 * The archive has code for x86-64 Linux (ELF, the System V calling convention), independent of its position, so that
 * it can go into a shared library too.
 */
#ifndef NPA_H
#define NPA_H

#include <stddef.h>
#include <stdint.h>

/* The version of header and archive. */
#define NPA_VERSION "1.8.0"
#define NPA_VERSION_MAJOR 1
#define NPA_VERSION_MINOR 8
#define NPA_VERSION_PATCH 0

/*
 * The stack that a call uses, at most, in bytes. The dynamic linker's own is counted, where a call is the first to need
 * memcpy. To measure: cc -Iinclude tests/c/stack.c target/staticlib/libnpa.a && ./a.out
 */
#define NPA_STACK_MOST 8192

/* The compiler warns where it sees a null pointer, and where the answer is ignored. */
#if defined(__GNUC__)
#define NPA_NOT_NULL __attribute__((__nonnull__))
#define NPA_ANSWERS __attribute__((__warn_unused_result__))
#else
#define NPA_NOT_NULL
#define NPA_ANSWERS
#endif

#ifdef __cplusplus
extern "C" {
#endif

/* Word 0 of a ledger, an opening block and an interval file; 2 of a block with its year and a file with schedules. */
#define NPA_FORMAT_1 1
#define NPA_FORMAT_2 2

/*
 * Sizes, in bytes. A block is a header, which is longer in format 2, and ids; a file a header, rows and points, and in
 * format 2, where header and rows are longer, schedules; a ledger a header and accounts; a
 * result a header, which is the interval's words, and rows.
 */
#define NPA_BLOCK_HEADER_BYTES 20
#define NPA_BLOCK_2_HEADER_BYTES 24
#define NPA_ID_BYTES 4
#define NPA_FILE_HEADER_BYTES 40
#define NPA_ROW_BYTES 56
#define NPA_FILE_2_HEADER_BYTES 48
#define NPA_ROW_2_BYTES 60
#define NPA_SCHEDULE_BYTES 12
#define NPA_POINT_BYTES 8
#define NPA_LEDGER_HEADER_BYTES 64
#define NPA_ACCOUNT_BYTES 32
#define NPA_RESULT_HEADER_BYTES 64
#define NPA_RESULT_ROW_BYTES 64

/* Of the length before each file of an event, and of the count of files settled. */
#define NPA_LENGTH_BYTES 4
#define NPA_COUNT_BYTES 8

/* The most ids of a ledger; rows, points and schedules of an interval file; points of a curve, schedules of a row. */
#define NPA_IDS_MOST 512
#define NPA_ROWS_MOST 512
#define NPA_POINTS_MOST 2048
#define NPA_SCHEDULES_MOST 1024
#define NPA_ROW_POINTS_MOST 10
#define NPA_ROW_SCHEDULES_MOST 4

/* Bytes of a ledger of so many ids, and of a result of so many rows. */
#define NPA_LEDGER_BYTES(ids) ((size_t)NPA_LEDGER_HEADER_BYTES + (size_t)NPA_ACCOUNT_BYTES * (ids))
#define NPA_RESULT_BYTES(rows) ((size_t)NPA_RESULT_HEADER_BYTES + (size_t)NPA_RESULT_ROW_BYTES * (rows))

/* Where an account of a ledger and a row of a result begin, counted from 0. */
#define NPA_ACCOUNT_AT(number) NPA_LEDGER_BYTES(number)
#define NPA_RESULT_ROW_AT(number) NPA_RESULT_BYTES(number)

/* The most bytes that any ledger or result needs, and that an opening block or interval file may have. */
#define NPA_LEDGER_MOST NPA_LEDGER_BYTES(NPA_IDS_MOST)
#define NPA_RESULT_MOST NPA_RESULT_BYTES(NPA_ROWS_MOST)
#define NPA_BLOCK_MOST 4096
#define NPA_FILE_MOST 61440

/* The most that an interval file of format 1 may have. */
#define NPA_FILE_1_MOST 49152

/*
 * The calendar year in which a delivery year starts, as an opening block of format 2 names it: 2016, which has 365
 * days, half the charge and half the limit, or one from NPA_YEAR_FIRST to NPA_YEAR_LAST.
 */
#define NPA_YEAR_TRANSITION 2016
#define NPA_YEAR_FIRST 2018
#define NPA_YEAR_LAST 2023

/* The most cents per MW-day of Net CONE; kW of a row or point; kW of imports, either way; cents per MWh, either way. */
#define NPA_NET_CONE_MOST 200000
#define NPA_KW_MOST 4000000
#define NPA_IMPORTS_MOST 40000000
#define NPA_PRICE_MOST 1000000

/* Intervals of a day; the interval of a file is below this times the days of the year. */
#define NPA_DAY_INTERVALS 288

/* The most cents that can be carried, and the most that a pool can have. */
#define NPA_POOL_MOST UINT64_C(1099511627775)

/*
 * Words by number, for the readers and writers below. Words of a block, file, row or point have 32 bits; words of a
 * ledger, account or result have 64.
 */

enum npa_block_word {
    NPA_BLOCK_FORMAT = 0,
    NPA_BLOCK_NET_CONE = 1, /* cents per MW-day */
    NPA_BLOCK_DAYS = 2,     /* 365 or 366 */
    NPA_BLOCK_IDS = 3,      /* how many */
    NPA_BLOCK_IDS_AT = 4,   /* offset in bytes */
    NPA_BLOCK_YEAR = 5      /* in format 2 alone */
};

enum npa_file_word {
    NPA_FILE_FORMAT = 0,
    NPA_FILE_INTERVAL = 1,
    NPA_FILE_NET_CONE = 2,
    NPA_FILE_DAYS = 3,
    NPA_FILE_REGION_WIDE = 4, /* 0 or 1 */
    NPA_FILE_IMPORTS = 5,     /* kW, signed */
    NPA_FILE_ROWS = 6,        /* how many */
    NPA_FILE_ROWS_AT = 7,     /* offset in bytes */
    NPA_FILE_POINTS = 8,      /* how many */
    NPA_FILE_POINTS_AT = 9,   /* offset in bytes */
    NPA_FILE_SCHEDULES = 10,  /* how many; this and the next in format 2 alone */
    NPA_FILE_SCHEDULES_AT = 11 /* offset in bytes */
};

/* Of a row in a file. Words 2 to 9 are kW. */
enum npa_row_word {
    NPA_ROW_ID = 0,
    NPA_ROW_KIND = 1, /* enum npa_kind */
    NPA_ROW_COMMITTED = 2,
    NPA_ROW_OWNED = 3,
    NPA_ROW_METERED = 4,      /* signed */
    NPA_ROW_ADJUSTMENT = 5,   /* reserve and regulation, signed */
    NPA_ROW_PLANNED = 6,      /* planned or maintenance outage */
    NPA_ROW_FORCED = 7,       /* forced outage */
    NPA_ROW_MAXIMUM = 8,      /* emergency maximum */
    NPA_ROW_MINIMUM = 9,      /* economic minimum */
    NPA_ROW_ONLINE = 10,      /* 0 or 1 */
    NPA_ROW_LMP = 11,         /* cents per MWh, signed */
    NPA_ROW_FIRST_POINT = 12, /* counted from 0 */
    NPA_ROW_POINTS = 13       /* how many */
};

/* Of a row in a file of format 2, from word 12 on. */
enum npa_row_2_word {
    NPA_ROW_FIRST_SCHEDULE = 12, /* counted from 0 */
    NPA_ROW_SCHEDULES = 13,      /* how many */
    NPA_ROW_DISPATCHED = 14      /* which of them it was dispatched on, counted from 0 */
};

/* Of a schedule in a file of format 2. */
enum npa_schedule_word {
    NPA_SCHEDULE_KIND = 0,        /* enum npa_schedule_kind */
    NPA_SCHEDULE_FIRST_POINT = 1, /* counted from 0 */
    NPA_SCHEDULE_POINTS = 2       /* how many */
};

enum npa_schedule_kind {
    NPA_SCHEDULE_MARKET = 1,
    NPA_SCHEDULE_PLS = 2, /* price-based PLS */
    NPA_SCHEDULE_COST = 3
};

enum npa_kind {
    NPA_KIND_GENERATION = 0, /* or storage */
    NPA_KIND_DEMAND = 1,
    NPA_KIND_EFFICIENCY = 2,
    NPA_KIND_PRD = 3, /* price responsive demand */
    NPA_KIND_ENERGY_ONLY = 4,
    NPA_KIND_IMPORTER = 5 /* has figures in a region-wide event only */
};

enum npa_point_word {
    NPA_POINT_PRICE = 0, /* cents per MWh, signed */
    NPA_POINT_KW = 1
};

enum npa_ledger_word {
    NPA_LEDGER_FORMAT = 0,
    NPA_LEDGER_NET_CONE = 1,
    NPA_LEDGER_DAYS = 2,
    NPA_LEDGER_EARLIEST = 3,    /* the earliest interval still accepted */
    NPA_LEDGER_CARRIED = 4,     /* cents */
    NPA_LEDGER_ACCOUNTS = 5,    /* how many */
    NPA_LEDGER_ACCOUNTS_AT = 6, /* offset in words: 8 */
    NPA_LEDGER_YEAR = 7         /* as the opening block named it, 0 if it named none */
};

/* Of an account in a ledger. */
enum npa_account_word {
    NPA_ACCOUNT_ID = 0,
    NPA_ACCOUNT_COMMITTED = 1, /* kW, the largest so far */
    NPA_ACCOUNT_CHARGED = 2,   /* cents */
    NPA_ACCOUNT_CREDITED = 3   /* cents */
};

/* Of the interval, at the head of a result. */
enum npa_result_word {
    NPA_RESULT_RATIO = 0, /* millionths */
    NPA_RESULT_CHARGES = 1,
    NPA_RESULT_CREDITS = 2,
    NPA_RESULT_CARRIED = 3,
    NPA_RESULT_BONUS = 4, /* kW, of all rows */
    NPA_RESULT_NUMERATOR = 5,
    NPA_RESULT_DENOMINATOR = 6,
    NPA_RESULT_ROWS = 7 /* how many */
};

/* Of a row in a result. */
enum npa_result_row_word {
    NPA_RESULT_ROW_EXPECTED = 0,
    NPA_RESULT_ROW_ACTUAL = 1,
    NPA_RESULT_ROW_OUTAGE = 2,
    NPA_RESULT_ROW_ECONOMIC = 3,
    NPA_RESULT_ROW_SHORTFALL = 4,
    NPA_RESULT_ROW_BONUS = 5,
    NPA_RESULT_ROW_CHARGE = 6, /* cents */
    NPA_RESULT_ROW_CREDIT = 7  /* cents */
};

enum npa_answer {
    NPA_OK = 0,

    /* Opening. */
    NPA_REFUSED_BLOCK = 1,        /* opening block too short, too long or of another format */
    NPA_REFUSED_TERMS = 2,        /* Net CONE out of range, or a year of neither 365 nor 366 days */
    NPA_REFUSED_ID_TABLE = 3,     /* no ids or too many, or some of them not inside the block */
    NPA_REFUSED_IDS = 4,          /* an id is 0, or not larger than the one before it */
    NPA_REFUSED_LEDGER_ROOM = 5,  /* ledger buffer too short for this many ids */
    NPA_REFUSED_YEAR = 23,        /* format 2 names a year that is not settled here, or 2016 with 366 days */

    /* Settling. */
    NPA_REFUSED_LEDGER = 6,       /* ledger cut short or damaged, or its sums do not close */
    NPA_REFUSED_FILE = 7,         /* interval file too short, too long or of another format */
    NPA_REFUSED_OTHER_TERMS = 8,  /* the file's Net CONE or days are not those of the ledger */
    NPA_REFUSED_EVENT = 9,        /* interval not in the year, region-wide not 0 or 1, or imports out of range */
    NPA_REFUSED_PAST = 10,        /* the ledger has already moved beyond this interval */
    NPA_REFUSED_TABLES = 11,      /* a table of an impossible number, outside the file, or overlapping another */
    NPA_REFUSED_ROW_IDS = 12,     /* row ids out of order, or a row without an account */
    NPA_REFUSED_ROW = 13,         /* a row has a word out of range, or words that contradict each other */
    NPA_REFUSED_POINTS = 14,      /* a curve's points are too many, outside the table, out of range or falling */
    NPA_REFUSED_RESULT_ROOM = 15, /* result buffer too short for this many rows */
    NPA_REFUSED_POOL = 16,        /* carried cents and charges together grow too large */
    NPA_REFUSED_SCHEDULES = 18,   /* of format 2, between 13 and 14: a row's schedules, or the one dispatched on */

    /* An event: the first before all else, the second for each file before 6. */
    NPA_REFUSED_COUNT_ROOM = 20,  /* count buffer under 8 bytes */
    NPA_REFUSED_LENGTH = 22       /* the buffer of files ends within a length or a file */
};

/*
 * Opens a ledger for the delivery year that the opening block describes. Answers NPA_OK or a refusal from 1 to 5,
 * or NPA_REFUSED_YEAR, which is tested after 2.
 *
 * block   is read.
 * ledger  needs NPA_LEDGER_BYTES(ids) bytes; what they held before does not matter. On NPA_OK all of them are
 *         written: the terms with the year, no interval settled, no cents carried, and an account without sums for
 *         each id.
 */
NPA_ANSWERS NPA_NOT_NULL
uint32_t npa_open(const uint8_t *block, size_t block_len, uint8_t *ledger, size_t ledger_len);

/*
 * Settles an interval file into a ledger. Answers NPA_OK or a refusal from 6 to 16, or
 * NPA_REFUSED_SCHEDULES, which is tested after 13 and before 14.
 *
 * ledger  is the one that npa_open and the calls since then left, which the caller sees to; of any other bytes
 *         the call only finds words out of range and sums that do not close. On NPA_OK the accounts have the
 *         commitments, charges and credits of the file's rows, the cents carried are those left over, and only
 *         later intervals are accepted: the same file again is NPA_REFUSED_PAST.
 * file    is read. It may be any bytes; whatever is not as laid out is refused.
 * result  needs NPA_RESULT_BYTES(rows) bytes; what they held before does not matter, and NPA_RESULT_MOST bytes are
 *         enough for any file. On NPA_OK they hold the interval's words and then each row's, in the file's order.
 *
 * The caller saves ledger and result together (docs/OPERATING.md). The same file into the same ledger gives the same
 * bytes, however often; but once the ledger has moved on, only a copy of it from before the call gives them again.
 * After a refusal both are as they were; unless it is NPA_REFUSED_LEDGER, the ledger takes the next file.
 */
NPA_ANSWERS NPA_NOT_NULL
uint32_t npa_settle(uint8_t *ledger, size_t ledger_len, const uint8_t *file, size_t file_len, uint8_t *result,
                    size_t result_len);

/*
 * Settles the interval files of an event into a ledger, in order, up to the first that is refused. Answers NPA_OK if
 * there is none, else the refusal of that file: NPA_REFUSED_LENGTH if it or its length is not wholly there, and then
 * what npa_settle answers for it. Before all else a count under NPA_COUNT_BYTES bytes is NPA_REFUSED_COUNT_ROOM.
 *
 * ledger  is as for npa_settle, and is left as a call of npa_settle for each of the files settled would leave it.
 * files   is read. Each file stands after its length in bytes, a word of 32 bits (npa_put32(files + at, 0, length)),
 *         and the next length right after the file. Where there are no bytes no file is settled, and the answer is
 *         NPA_OK, whatever the ledger.
 * result  takes one result after another, NPA_RESULT_BYTES(rows) bytes each; a file has the room that those before it
 *         leave, and NPA_RESULT_MOST bytes a file are enough for any files.
 * count   gets the number of files settled, a word of 64 bits (npa_get64(count, 0)), on a refusal too.
 *
 * After NPA_REFUSED_COUNT_ROOM every byte is as it was. After any other refusal the files before the refused one are
 * settled: their results stand in result, and the ledger has moved on, so both are saved as after NPA_OK. Of the
 * refused file, which is number count, counted from 0, nothing is written, and the files behind it were not looked at.
 * A later call starts at that file; those settled before it would be NPA_REFUSED_PAST.
 */
NPA_ANSWERS NPA_NOT_NULL
uint32_t npa_event(uint8_t *ledger, size_t ledger_len, const uint8_t *files, size_t files_len, uint8_t *result,
                   size_t result_len, uint8_t *count, size_t count_len);

/*
 * Readers and writers of words, lowest byte first, at any address and on any machine. A word is counted in its own
 * size from where the header, row, point or account begins.
 */

/* A word of 32 bits: of a block, file, row or point, or a length. */
NPA_ANSWERS NPA_NOT_NULL
static inline uint32_t npa_get32(const uint8_t *bytes, size_t word)
{
    const uint8_t *at = bytes + 4 * word;
    return (uint32_t)at[0] | (uint32_t)at[1] << 8 | (uint32_t)at[2] << 16 | (uint32_t)at[3] << 24;
}

/* A signed word of 32 bits: imports, metered, adjustment, LMP, price. */
NPA_ANSWERS NPA_NOT_NULL
static inline int32_t npa_get32_signed(const uint8_t *bytes, size_t word)
{
    uint32_t value = npa_get32(bytes, word);
    return value <= INT32_MAX ? (int32_t)value : -(int32_t)(UINT32_MAX - value) - 1;
}

/* A word of 64 bits: of a ledger, account or result, or a count. */
NPA_ANSWERS NPA_NOT_NULL
static inline uint64_t npa_get64(const uint8_t *bytes, size_t word)
{
    return (uint64_t)npa_get32(bytes, 2 * word) | (uint64_t)npa_get32(bytes, 2 * word + 1) << 32;
}

/* Writes a word of 32 bits; a signed number is cast: npa_put32(row, NPA_ROW_LMP, (uint32_t)-500). */
NPA_NOT_NULL
static inline void npa_put32(uint8_t *bytes, size_t word, uint32_t value)
{
    uint8_t *at = bytes + 4 * word;
    at[0] = (uint8_t)value;
    at[1] = (uint8_t)(value >> 8);
    at[2] = (uint8_t)(value >> 16);
    at[3] = (uint8_t)(value >> 24);
}

/* Writes a word of 64 bits. */
NPA_NOT_NULL
static inline void npa_put64(uint8_t *bytes, size_t word, uint64_t value)
{
    npa_put32(bytes, 2 * word, (uint32_t)value);
    npa_put32(bytes, 2 * word + 1, (uint32_t)(value >> 32));
}

/* What an answer means, in words. */
static inline const char *npa_answer_text(uint32_t answer)
{
    switch (answer) {
    case NPA_OK:
        return "accepted";
    case NPA_REFUSED_BLOCK:
        return "the opening block is too short, too long or of another format";
    case NPA_REFUSED_TERMS:
        return "Net CONE is outside 1 to 200000 cents per MW-day, or the days are neither 365 nor 366";
    case NPA_REFUSED_ID_TABLE:
        return "there are no ids or more than 512, or they do not lie inside the block";
    case NPA_REFUSED_IDS:
        return "an id is 0, or not above the one before it";
    case NPA_REFUSED_LEDGER_ROOM:
        return "the ledger buffer is too short";
    case NPA_REFUSED_LEDGER:
        return "the ledger is cut short or damaged, or its sums do not close";
    case NPA_REFUSED_FILE:
        return "the interval file is too short, too long or of another format";
    case NPA_REFUSED_OTHER_TERMS:
        return "the file's Net CONE or days are not the ledger's";
    case NPA_REFUSED_EVENT:
        return "the interval is not in the year, region-wide is not 0 or 1, "
               "or imports are beyond 40000000 kW in or out";
    case NPA_REFUSED_PAST:
        return "the interval is before the earliest that the ledger still accepts; the same file again is such a one";
    case NPA_REFUSED_TABLES:
        return "there are no rows, more than 512, more than 2048 points or 1024 schedules, "
               "or a table leaves the file or overlaps another";
    case NPA_REFUSED_ROW_IDS:
        return "row ids do not rise, or a row has no account";
    case NPA_REFUSED_ROW:
        return "a word of a row is out of range (kind 5, 4000000 kW, 1000000 cents per MWh), or contradicts another, "
               "as a commitment does kind 4 or 5";
    case NPA_REFUSED_POINTS:
        return "a curve has more than 10 points, a schedule none, or they lie outside the table, are out of range "
               "or fall";
    case NPA_REFUSED_RESULT_ROOM:
        return "the result buffer is too short";
    case NPA_REFUSED_POOL:
        return "carried cents and charges together would exceed 1099511627775";
    case NPA_REFUSED_SCHEDULES:
        return "a row names more than 4 schedules, or some outside the table or of no kind, "
               "or was dispatched on none of them; tested after 13";
    case NPA_REFUSED_COUNT_ROOM:
        return "the count buffer is too short";
    case NPA_REFUSED_LENGTH:
        return "the buffer of files ends within a length, or before the file that a length announces";
    case NPA_REFUSED_YEAR:
        return "the year of an opening block of format 2 is neither 2016 nor 2018 to 2023, or it is 2016 with 366 "
               "days; tested after 2";
    default:
        return "no answer of the settlement module";
    }
}

#ifdef __cplusplus
}
#endif

#endif
