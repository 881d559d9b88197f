/*
 * Settles files of format 2 from C: plants with several schedules, of which every word of the result is looked at; then
 * lengths, tables, schedules and points on both sides of their bounds.
 * Fails at the first difference and says what it is; else it says nothing. It is C99 and C++11.
 */
#include "npa.h"

#include "check.h"

#define ROWS 6
#define POINTS 9
#define SCHEDULES 5
#define BLOCK_WORDS (5 + ROWS)
#define ROWS_AT (NPA_FILE_2_HEADER_BYTES / 4)
#define POINTS_AT (ROWS_AT + NPA_ROW_2_BYTES / 4 * ROWS)
#define SCHEDULES_AT (POINTS_AT + 2 * POINTS)
#define FILE_WORDS (SCHEDULES_AT + 3 * SCHEDULES)
#define FILE_LEN (4 * FILE_WORDS)
#define LEDGER_LEN NPA_LEDGER_BYTES(ROWS)
#define RESULT_LEN NPA_RESULT_BYTES(ROWS)

/* The words of a row, and of a schedule. */
#define ROW(row, word) (ROWS_AT + NPA_ROW_2_BYTES / 4 * (row) + (word))
#define SCHEDULE(schedule, word) (SCHEDULES_AT + 3 * (schedule) + (word))

static const uint32_t FILE_2[FILE_WORDS] = {
    /* as in format 1; then schedules and their offset */
    NPA_FORMAT_2, 100, 30000, 365, 1, 200000, ROWS, 4 * ROWS_AT, POINTS, 4 * POINTS_AT, SCHEDULES, 4 * SCHEDULES_AT,
    /* as in format 1 up to the LMP; then first schedule, schedules, and the one dispatched on */
    11, 0, 100000, 110000, 10000, 0, 0, 0, 110000, 20000, 1, 3000, 0, 3, 0,
    12, 0, 100000, 110000, 10000, 0, 0, 0, 110000, 20000, 1, 3000, 0, 3, 1,
    13, 0, 100000, 110000, 10000, 0, 0, 0, 110000, 20000, 1, 3000, 0, 3, 2,
    14, 4, 0, 110000, 90000, 0, 0, 0, 110000, 0, 1, 3000, 0, 3, 2,
    15, 3, 1000, 0, 1500, 0, 0, 0, 0, 0, 0, 1600, 3, 2, 1,
    16, 0, 50000, 60000, 55000, 0, 0, 0, 60000, 0, 1, 3000, 0xffffffff, 0, 0,
    /* price, kW: 80000, 70000 and 60000 kW at an LMP of 3000, then two curves of price responsive demand */
    1000, 40000, 5000, 120000,
    1000, 30000, 5000, 110000,
    1000, 20000, 5000, 100000,
    500, 0, 2000, 3000,
    1500, 1,
    /* kind, first point, points */
    NPA_SCHEDULE_MARKET, 0, 2,
    NPA_SCHEDULE_PLS, 2, 2,
    NPA_SCHEDULE_COST, 4, 2,
    NPA_SCHEDULE_MARKET, 6, 2,
    NPA_SCHEDULE_COST, 8, 1,
};

static const uint64_t RESULT[8 + 8 * ROWS] = {
    /* ratio, charges, credits, carried, total bonus, numerator, denominator, rows */
    1000000, 5475000, 5474998, 2, 65500, 375500, 350000, ROWS,
    /* expected, actual, outage, economic, shortfall, bonus, charge, credit */
    100000, 10000, 0, 20000, 70000, 0, 2129167, 0,
    100000, 10000, 0, 30000, 60000, 0, 1825000, 0,
    100000, 10000, 0, 40000, 50000, 0, 1520833, 0,
    0, 90000, 0, 0, 0, 60000, 0, 5015267,
    1000, 1500, 0, 0, 0, 500, 0, 41793,
    50000, 55000, 0, 0, 0, 5000, 0, 417938,
};

/* A ledger as opening leaves it. */
static uint8_t *opened(void)
{
    static const uint32_t WORDS[BLOCK_WORDS] = {1, 30000, 365, ROWS, 20, 11, 12, 13, 14, 15, 16};
    uint8_t *block = bytes_of(WORDS, sizeof WORDS);
    uint8_t *ledger = buffer(LEDGER_LEN);
    hold("answer to opening", 0, npa_open(block, sizeof WORDS, ledger, LEDGER_LEN), NPA_OK);
    free(block);
    return ledger;
}

/* Settles a file of any length; a refusal changes no byte. */
static void settle(const char *what, size_t which, const uint8_t *file, size_t length, uint32_t answer)
{
    uint8_t *ledger = opened();
    uint8_t *untouched = opened();
    uint8_t *result = filled(RESULT_LEN);

    hold(what, which, npa_settle(ledger, LEDGER_LEN, file, length, result, RESULT_LEN), answer);
    if (answer != NPA_OK) {
        hold("ledger unchanged by refusal", which, memcmp(ledger, untouched, LEDGER_LEN) == 0, 1);
        hold_filler("result byte after a refusal", result, 0, RESULT_LEN);
    }
    free(ledger);
    free(untouched);
    free(result);
}

/* Settles the file, and again, when it is refused. */
static void settle_file(void)
{
    uint8_t *ledger = opened();
    uint8_t *file = bytes_of(FILE_2, FILE_LEN);
    uint8_t *result = buffer(RESULT_LEN);
    size_t i;

    hold("answer to the file", 0, npa_settle(ledger, LEDGER_LEN, file, FILE_LEN, result, RESULT_LEN), NPA_OK);
    for (i = 0; i < 8 + 8 * ROWS; i++) {
        hold("result word", i, word(result, i), RESULT[i]);
    }
    for (i = 0; i < ROWS; i++) {
        hold("charged to plant", 11 + i, word(ledger, 8 + 4 * i + 2), RESULT[8 + 8 * i + 6]);
        hold("credited to plant", 11 + i, word(ledger, 8 + 4 * i + 3), RESULT[8 + 8 * i + 7]);
    }
    hold("answer to the same file", 0, npa_settle(ledger, LEDGER_LEN, file, FILE_LEN, result, RESULT_LEN),
         NPA_REFUSED_PAST);
    free(ledger);
    free(file);
    free(result);
}

/* The file with one word changed. */
struct change {
    uint32_t answer;
    size_t word;
    uint32_t value;
};

static const struct change CHANGES[] = {
    {NPA_REFUSED_FILE, 0, 3},
    {NPA_REFUSED_TABLES, NPA_FILE_ROWS, 0},
    {NPA_REFUSED_TABLES, NPA_FILE_ROWS_AT, 47},
    {NPA_REFUSED_TABLES, NPA_FILE_ROWS_AT, 49},
    {NPA_REFUSED_TABLES, NPA_FILE_POINTS_AT, 4 * POINTS_AT - 1},
    {NPA_REFUSED_TABLES, NPA_FILE_POINTS_AT, 4 * POINTS_AT + 1},
    {NPA_REFUSED_TABLES, NPA_FILE_SCHEDULES, SCHEDULES + 1},
    {NPA_REFUSED_TABLES, NPA_FILE_SCHEDULES, 0xffffffff},
    {NPA_REFUSED_TABLES, NPA_FILE_SCHEDULES_AT, 4 * SCHEDULES_AT - 1},
    {NPA_REFUSED_TABLES, NPA_FILE_SCHEDULES_AT, 4 * SCHEDULES_AT + 1},
    {NPA_REFUSED_TABLES, NPA_FILE_SCHEDULES_AT, 0xffffffff},
    {NPA_REFUSED_ROW_IDS, ROW(1, NPA_ROW_ID), 11},
    {NPA_REFUSED_ROW, ROW(5, NPA_ROW_KIND), NPA_KIND_IMPORTER + 1},
    {NPA_OK, ROW(0, NPA_ROW_SCHEDULES), NPA_ROW_SCHEDULES_MOST},
    {NPA_REFUSED_SCHEDULES, ROW(0, NPA_ROW_SCHEDULES), NPA_ROW_SCHEDULES_MOST + 1},
    {NPA_REFUSED_SCHEDULES, ROW(4, NPA_ROW_SCHEDULES), 3},
    {NPA_OK, ROW(4, NPA_ROW_FIRST_SCHEDULE), 2},
    {NPA_REFUSED_SCHEDULES, ROW(4, NPA_ROW_FIRST_SCHEDULE), 4},
    {NPA_REFUSED_SCHEDULES, ROW(4, NPA_ROW_FIRST_SCHEDULE), 0xffffffff},
    {NPA_OK, ROW(0, NPA_ROW_DISPATCHED), 2},
    {NPA_REFUSED_SCHEDULES, ROW(0, NPA_ROW_DISPATCHED), 3},
    {NPA_OK, ROW(5, NPA_ROW_FIRST_SCHEDULE), 5},
    {NPA_REFUSED_SCHEDULES, ROW(5, NPA_ROW_DISPATCHED), 1},
    {NPA_OK, SCHEDULE(1, NPA_SCHEDULE_KIND), NPA_SCHEDULE_COST},
    {NPA_REFUSED_SCHEDULES, SCHEDULE(1, NPA_SCHEDULE_KIND), 0},
    {NPA_REFUSED_SCHEDULES, SCHEDULE(4, NPA_SCHEDULE_KIND), NPA_SCHEDULE_COST + 1},
    {NPA_OK, SCHEDULE(0, NPA_SCHEDULE_POINTS), 1},
    {NPA_REFUSED_POINTS, SCHEDULE(0, NPA_SCHEDULE_POINTS), 0},
    {NPA_REFUSED_POINTS, SCHEDULE(0, NPA_SCHEDULE_POINTS), NPA_ROW_POINTS_MOST + 1},
    {NPA_REFUSED_POINTS, SCHEDULE(0, NPA_SCHEDULE_POINTS), 3},
    {NPA_REFUSED_POINTS, SCHEDULE(4, NPA_SCHEDULE_FIRST_POINT), POINTS},
    {NPA_REFUSED_POINTS, SCHEDULE(4, NPA_SCHEDULE_FIRST_POINT), 0xffffffff},
    {NPA_REFUSED_POINTS, POINTS_AT + 1, NPA_KW_MOST + 1},
};

static void settle_changes(void)
{
    uint32_t words[FILE_WORDS];
    uint8_t *file;
    size_t i;

    for (i = 0; i < sizeof CHANGES / sizeof CHANGES[0]; i++) {
        memcpy(words, FILE_2, sizeof words);
        words[CHANGES[i].word] = CHANGES[i].value;
        file = bytes_of(words, FILE_LEN);
        settle("answer to change", i, file, FILE_LEN, CHANGES[i].answer);
        free(file);
    }
}

/* The first bytes of the file, or all of it and filler, which nobody names; as format 1 it has one plant's row. */
static void settle_length(uint32_t format, size_t length, uint32_t answer)
{
    uint32_t words[FILE_WORDS];
    uint8_t *file = filled(length);
    uint8_t *whole;

    memcpy(words, FILE_2, sizeof words);
    if (format == NPA_FORMAT_1) {
        words[NPA_FILE_FORMAT] = NPA_FORMAT_1;
        words[NPA_FILE_ROWS] = 1;
        words[NPA_FILE_POINTS] = 0;
        words[ROW(0, NPA_ROW_POINTS)] = 0;
    }
    whole = bytes_of(words, FILE_LEN);
    memcpy(file, whole, length < FILE_LEN ? length : FILE_LEN);
    settle(format == NPA_FORMAT_2 ? "answer to a file of format 2 of length" : "answer to a file of format 1 of length",
           length, file, length, answer);
    free(file);
    free(whole);
}

/* So many schedules, all really there behind the others. */
static void settle_schedules(uint32_t schedules, uint32_t answer)
{
    const size_t length = 4 * SCHEDULES_AT + (size_t)NPA_SCHEDULE_BYTES * schedules;
    uint8_t *file = filled(length);
    uint8_t *whole = bytes_of(FILE_2, FILE_LEN);

    memcpy(file, whole, FILE_LEN);
    npa_put32(file, NPA_FILE_SCHEDULES, schedules);
    settle("answer to schedules", schedules, file, length, answer);
    free(file);
    free(whole);
}

/* The last plant alone, without points and schedules, whose tables stand at an offset. */
static void settle_empty(size_t word, uint32_t offset, uint32_t answer)
{
    uint32_t words[NPA_FILE_2_HEADER_BYTES / 4 + NPA_ROW_2_BYTES / 4];
    uint8_t *file;

    memcpy(words, FILE_2, NPA_FILE_2_HEADER_BYTES);
    memcpy(words + ROWS_AT, FILE_2 + ROW(5, 0), NPA_ROW_2_BYTES);
    words[NPA_FILE_ROWS] = 1;
    words[NPA_FILE_POINTS] = words[NPA_FILE_SCHEDULES] = 0;
    words[NPA_FILE_POINTS_AT] = words[NPA_FILE_SCHEDULES_AT] = NPA_FILE_2_HEADER_BYTES;
    words[word] = offset;
    file = bytes_of(words, sizeof words);
    settle("answer to an empty table at", offset, file, sizeof words, answer);
    free(file);
}

int main(void)
{
    static const size_t EMPTY[] = {NPA_FILE_POINTS_AT, NPA_FILE_SCHEDULES_AT};
    size_t i;

    settle_file();
    settle_changes();
    settle_length(NPA_FORMAT_2, 0, NPA_REFUSED_FILE);
    settle_length(NPA_FORMAT_2, NPA_FILE_2_HEADER_BYTES - 1, NPA_REFUSED_FILE);
    settle_length(NPA_FORMAT_2, NPA_FILE_2_HEADER_BYTES, NPA_REFUSED_TABLES);
    settle_length(NPA_FORMAT_2, FILE_LEN - 1, NPA_REFUSED_TABLES);
    settle_length(NPA_FORMAT_2, NPA_FILE_1_MOST + 1, NPA_OK);
    settle_length(NPA_FORMAT_2, NPA_FILE_MOST, NPA_OK);
    settle_length(NPA_FORMAT_2, NPA_FILE_MOST + 1, NPA_REFUSED_FILE);
    settle_length(NPA_FORMAT_1, NPA_FILE_1_MOST, NPA_OK);
    settle_length(NPA_FORMAT_1, NPA_FILE_1_MOST + 1, NPA_REFUSED_FILE);
    settle_length(NPA_FORMAT_1, NPA_FILE_MOST, NPA_REFUSED_FILE);
    settle_schedules(NPA_SCHEDULES_MOST, NPA_OK);
    settle_schedules(NPA_SCHEDULES_MOST + 1, NPA_REFUSED_TABLES);
    for (i = 0; i < sizeof EMPTY / sizeof EMPTY[0]; i++) {
        settle_empty(EMPTY[i], NPA_FILE_2_HEADER_BYTES - 1, NPA_REFUSED_TABLES);
        settle_empty(EMPTY[i], NPA_FILE_2_HEADER_BYTES, NPA_OK);
        settle_empty(EMPTY[i], NPA_FILE_2_HEADER_BYTES + NPA_ROW_2_BYTES, NPA_OK);
        settle_empty(EMPTY[i], NPA_FILE_2_HEADER_BYTES + NPA_ROW_2_BYTES + 1, NPA_REFUSED_TABLES);
    }
    return 0;
}
