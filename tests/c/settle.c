/*
 * Settles the file of document 01's listing from C and looks at every word of ledger and result; then the same
 * file again, buffers that are too short, a file to refuse on each other ground, one with an importer, and ledgers
 * of other years.
 * Fails at the first difference and says what it is; else it says nothing. It is C99 and C++11.
 */
#include "npa.h"

#include "check.h"

#define IDS 4
#define ROWS 4
#define POINTS 6
#define BLOCK_WORDS (5 + IDS)
#define BLOCK_LEN (4 * BLOCK_WORDS)
#define FILE_WORDS (10 + 14 * ROWS + 2 * POINTS)
#define FILE_LEN (4 * FILE_WORDS)
#define LEDGER_LEN NPA_LEDGER_BYTES(IDS)
#define RESULT_LEN NPA_RESULT_BYTES(ROWS)
#define BEYOND 40

static const uint32_t LISTING[FILE_WORDS] = {
    /* format, interval, Net CONE, days, region-wide, imports, rows and their offset, points and their offset */
    1, 1000, 30000, 365, 0, 0, ROWS, 40, POINTS, 40 + 56 * ROWS,
    /* id, kind, committed, owned, metered, adjustment, planned, forced, maximum, minimum, online, LMP, points */
    11, 0, 100000, 110000, 60000, 0, 10000, 0, 110000, 20000, 1, 3000, 0, 2,
    12, 0, 50000, 60000, 20000, 5000, 0, 35000, 25000, 10000, 1, 6001, 2, 2,
    13, 4, 0, 40000, 35000, 0, 0, 0, 40000, 0, 1, 3000, 4, 2,
    14, 1, 5000, 0, 15001, 0, 0, 0, 0, 0, 0, 0, 0, 0,
    /* price, kW */
    1000, 20000, 5000, 100000,
    1000, 10000, 6000, 50000,
    0, 0, 4000, 40000,
};

static const uint64_t RESULT[8 + 8 * ROWS] = {
    /* ratio, charges, credits, carried, total bonus, numerator, denominator, rows */
    866673, 557629, 557628, 1, 40001, 130001, 150000, ROWS,
    /* expected, actual, outage, economic, shortfall, bonus, charge, credit */
    86667, 60000, 10000, 26667, 0, 0, 0, 0,
    43333, 25000, 0, 0, 18333, 0, 557629, 0,
    0, 35000, 0, 0, 0, 30000, 0, 418211,
    5000, 15001, 0, 0, 0, 10001, 0, 139417,
};

static const uint64_t LEDGER[8 + 4 * IDS] = {
    /* format, Net CONE, days, earliest interval, carried, accounts and their offset, no year */
    1, 30000, 365, 1001, 1, IDS, 8, 0,
    /* id, largest commitment, charged, credited */
    11, 100000, 0, 0,
    12, 50000, 557629, 0,
    13, 0, 0, 418211,
    14, 5000, 0, 139417,
};

/* A ledger as opening leaves it; it has the listing's ids. */
static uint8_t *opened(uint32_t net_cone, uint32_t days)
{
    uint32_t words[BLOCK_WORDS] = {1, net_cone, days, IDS, 20, 11, 12, 13, 14};
    uint8_t *block = bytes_of(words, BLOCK_LEN);
    uint8_t *ledger = buffer(LEDGER_LEN);
    hold("answer to an opening block of length", BLOCK_LEN, npa_open(block, BLOCK_LEN, ledger, LEDGER_LEN), NPA_OK);
    free(block);
    return ledger;
}

/* Sets a word of a ledger. */
static void put_word(uint8_t *ledger, size_t number, uint64_t value)
{
    size_t i;
    for (i = 0; i < 8; i++) {
        ledger[8 * number + i] = (uint8_t)(value >> (8 * i));
    }
}

/* Holds a ledger and a result to the listing's. */
static void hold_listing(const uint8_t *ledger, const uint8_t *result)
{
    size_t i;
    for (i = 0; i < 8 + 4 * IDS; i++) {
        hold("ledger word", i, word(ledger, i), LEDGER[i]);
    }
    for (i = 0; i < 8 + 8 * ROWS; i++) {
        hold("result word", i, word(result, i), RESULT[i]);
    }
}

/* Settles the listing's file, and again, when it is refused; the result buffer is not set before. */
static void settle_twice(void)
{
    uint8_t *ledger = opened(30000, 365);
    uint8_t *file = bytes_of(LISTING, FILE_LEN);
    uint8_t *result = buffer(RESULT_LEN);

    hold("answer to the listing's file of length", FILE_LEN,
         npa_settle(ledger, LEDGER_LEN, file, FILE_LEN, result, RESULT_LEN), NPA_OK);
    hold_listing(ledger, result);
    hold("answer to the same file of length", FILE_LEN,
         npa_settle(ledger, LEDGER_LEN, file, FILE_LEN, result, RESULT_LEN), NPA_REFUSED_PAST);
    hold_listing(ledger, result);
    free(ledger);
    free(file);
    free(result);
}

/* Settles the listing's file with a result buffer of any length; bytes beyond the rows stay as they were. */
static void settle_into(size_t result_len, uint32_t answer)
{
    uint8_t *ledger = opened(30000, 365);
    uint8_t *untouched = opened(30000, 365);
    uint8_t *file = bytes_of(LISTING, FILE_LEN);
    uint8_t *result = filled(result_len);

    hold("answer with result bytes", result_len,
         npa_settle(ledger, LEDGER_LEN, file, FILE_LEN, result, result_len), answer);
    if (answer == NPA_OK) {
        hold_listing(ledger, result);
        hold_filler("result byte beyond the rows", result, RESULT_LEN, result_len);
    } else {
        hold("ledger unchanged with result bytes", result_len, memcmp(ledger, untouched, LEDGER_LEN) == 0, 1);
        hold_filler("result byte after a refusal", result, 0, result_len);
    }
    free(ledger);
    free(untouched);
    free(file);
    free(result);
}

/* Settles the listing with an importer as its last row, which adds nothing to the ratio. */
static void settle_importer(uint32_t region_wide)
{
    static const uint64_t ROW[2][8] = {{0}, {0, 15001, 0, 0, 0, 15001, 0, 152090}};
    uint32_t words[FILE_WORDS];
    uint8_t *ledger = opened(30000, 365);
    uint8_t *result = buffer(RESULT_LEN);
    uint8_t *file;
    size_t i;

    memcpy(words, LISTING, sizeof words);
    words[NPA_FILE_REGION_WIDE] = region_wide;
    words[10 + 14 * 3 + NPA_ROW_KIND] = NPA_KIND_IMPORTER;
    words[10 + 14 * 3 + NPA_ROW_COMMITTED] = 0;
    file = bytes_of(words, FILE_LEN);
    hold("answer with an importer, region-wide", region_wide,
         npa_settle(ledger, LEDGER_LEN, file, FILE_LEN, result, RESULT_LEN), NPA_OK);
    hold("numerator with an importer, region-wide", region_wide, word(result, NPA_RESULT_NUMERATOR), 120000);
    hold("charges with an importer, region-wide", region_wide, word(result, NPA_RESULT_CHARGES), 456250);
    hold("carried with an importer, region-wide", region_wide, word(result, NPA_RESULT_CARRIED), region_wide);
    hold("rows with an importer, region-wide", region_wide, word(result, NPA_RESULT_ROWS), ROWS);
    for (i = 0; i < 8; i++) {
        hold("importer's word", i, word(result, 8 + 8 * 3 + i), ROW[region_wide][i]);
    }
    hold("credit of the importer's account", region_wide, word(ledger, 8 + 4 * 3 + 3), ROW[region_wide][7]);
    free(ledger);
    free(file);
    free(result);
}

/* The listing with one word of its ledger or its file changed. */
struct refusal {
    uint32_t answer;
    int in_ledger;
    size_t word;
    uint32_t value;
};

static const struct refusal REFUSALS[] = {
    {NPA_REFUSED_LEDGER, 1, 0, 2},
    {NPA_REFUSED_LEDGER, 1, 4, 1},
    {NPA_REFUSED_LEDGER, 1, 7, 1},
    {NPA_REFUSED_FILE, 0, 0, 2},
    {NPA_REFUSED_OTHER_TERMS, 0, 2, 30001},
    {NPA_REFUSED_OTHER_TERMS, 0, 3, 366},
    {NPA_REFUSED_EVENT, 0, 1, 105120},
    {NPA_REFUSED_EVENT, 0, 4, 2},
    {NPA_REFUSED_EVENT, 0, 5, 40000001},
    {NPA_REFUSED_PAST, 1, 3, 1001},
    {NPA_REFUSED_TABLES, 0, 6, 0},
    {NPA_REFUSED_TABLES, 0, 7, 39},
    {NPA_REFUSED_TABLES, 0, 9, 0xffffffff},
    {NPA_REFUSED_ROW_IDS, 0, 10, 12},
    {NPA_REFUSED_ROW_IDS, 0, 52, 15},
    {NPA_REFUSED_ROW, 0, 11, NPA_KIND_IMPORTER},
    {NPA_REFUSED_ROW, 0, 11, NPA_KIND_IMPORTER + 1},
    {NPA_REFUSED_ROW, 0, 54, 4000001},
    {NPA_REFUSED_POINTS, 0, 23, 11},
    {NPA_REFUSED_POINTS, 0, 77, 4000001},
};

/* Makes a call to refuse; no byte of ledger and result may change. */
static void refuse(uint8_t *ledger, const uint32_t *words, uint32_t answer)
{
    uint8_t before[LEDGER_LEN];
    uint8_t *file = bytes_of(words, FILE_LEN);
    uint8_t *result = filled(RESULT_LEN);

    memcpy(before, ledger, LEDGER_LEN);
    hold("answer to a call to refuse on", answer,
         npa_settle(ledger, LEDGER_LEN, file, FILE_LEN, result, RESULT_LEN), answer);
    hold("ledger unchanged by refusal", answer, memcmp(ledger, before, LEDGER_LEN) == 0, 1);
    hold_filler("result byte after a refusal", result, 0, RESULT_LEN);
    free(file);
    free(result);
}

/* Refuses the listing with one word changed. */
static void refuse_word(const struct refusal *refusal)
{
    uint32_t words[FILE_WORDS];
    uint8_t *ledger = opened(30000, 365);

    memcpy(words, LISTING, sizeof words);
    if (refusal->in_ledger) {
        put_word(ledger, refusal->word, refusal->value);
    } else {
        words[refusal->word] = refusal->value;
    }
    refuse(ledger, words, refusal->answer);
    free(ledger);
}

/* Settles the listing's file in a year, of which the ledger keeps the word; plant 12 is charged so many cents. */
static void settle_year(uint64_t year, uint64_t charge)
{
    uint8_t *ledger = opened(30000, 365);
    uint8_t *file = bytes_of(LISTING, FILE_LEN);
    uint8_t *result = buffer(RESULT_LEN);

    put_word(ledger, NPA_LEDGER_YEAR, year);
    hold("answer in the year", (size_t)year,
         npa_settle(ledger, LEDGER_LEN, file, FILE_LEN, result, RESULT_LEN), NPA_OK);
    hold("charge in the year", (size_t)year, word(result, 8 + 8 + 6), charge);
    hold("charges of the account in the year", (size_t)year, word(ledger, 8 + 4 + 2), charge);
    hold("year kept", (size_t)year, word(ledger, NPA_LEDGER_YEAR), year);
    free(ledger);
    free(file);
    free(result);
}

/* Settles in each year that there is, and refuses others, also those that are right in the lower half of the word. */
static void years(void)
{
    static const uint64_t OTHERS[] = {
        1, 2015, 2017, 2024, 65536 + 2016, UINT64_C(1) << 32, (UINT64_C(1) << 32) + 2016, (UINT64_C(1) << 63) + 2018,
    };
    uint32_t words[FILE_WORDS];
    uint8_t *ledger;
    uint64_t year;
    size_t i;

    settle_year(0, 557629);
    settle_year(2016, 278814);
    for (year = 2018; year <= 2023; year++) {
        settle_year(year, 557629);
    }
    for (i = 0; i < sizeof OTHERS / sizeof OTHERS[0]; i++) {
        ledger = opened(30000, 365);
        put_word(ledger, NPA_LEDGER_YEAR, OTHERS[i]);
        refuse(ledger, LISTING, NPA_REFUSED_LEDGER);
        free(ledger);
    }
    memcpy(words, LISTING, sizeof words);
    words[NPA_FILE_DAYS] = 366;
    ledger = opened(30000, 366);
    put_word(ledger, NPA_LEDGER_YEAR, 2016);
    refuse(ledger, words, NPA_REFUSED_LEDGER);
    free(ledger);
}

/* Settles the listing's file into a ledger in which plant 12 has reached its limit; its charge is nothing. */
static void hold_at_limit(uint8_t *ledger, uint64_t limit)
{
    uint8_t *file = bytes_of(LISTING, FILE_LEN);
    uint8_t *result = buffer(RESULT_LEN);

    hold("answer at the limit", 0, npa_settle(ledger, LEDGER_LEN, file, FILE_LEN, result, RESULT_LEN), NPA_OK);
    hold("shortfall at the limit", 0, word(result, 8 + 8 + 4), 18333);
    hold("charge at the limit", 0, word(result, 8 + 8 + 6), 0);
    hold("charges of the account at the limit", 0, word(ledger, 8 + 4 + 2), limit);
    free(file);
    free(result);
}

/* Plant 12 is at its limit of 2016 for 50000 kW, or a cent above. */
static void limit_of_2016(void)
{
    const uint64_t limit = 410625000;
    uint8_t *ledger = opened(30000, 365);

    put_word(ledger, NPA_LEDGER_YEAR, 2016);
    put_word(ledger, 8 + 4 + 1, 50000);
    put_word(ledger, 8 + 4 + 2, limit + 1);
    put_word(ledger, 4, limit + 1);
    refuse(ledger, LISTING, NPA_REFUSED_LEDGER);
    put_word(ledger, 8 + 4 + 2, limit);
    put_word(ledger, 4, limit);
    hold_at_limit(ledger, limit);
    free(ledger);
}

/* Refuses the listing where as much is carried as may be, and its charges would be added. */
static void refuse_pool(void)
{
    const uint64_t carried = 1099511627775u;
    const uint64_t charged = 300000000000u;
    uint32_t words[FILE_WORDS];
    uint8_t *ledger = opened(200000, 366);
    size_t i;

    memcpy(words, LISTING, sizeof words);
    words[2] = 200000;
    words[3] = 366;
    put_word(ledger, 4, carried);
    for (i = 0; i < IDS; i++) {
        put_word(ledger, 9 + 4 * i, 3000000);
        put_word(ledger, 10 + 4 * i, charged);
    }
    put_word(ledger, 11, IDS * charged - carried);
    refuse(ledger, words, NPA_REFUSED_POOL);
    free(ledger);
}

int main(void)
{
    size_t i;
    settle_twice();
    settle_into(RESULT_LEN, NPA_OK);
    settle_into(RESULT_LEN + BEYOND, NPA_OK);
    settle_into(RESULT_LEN - 1, NPA_REFUSED_RESULT_ROOM);
    settle_into(0, NPA_REFUSED_RESULT_ROOM);
    for (i = 0; i < sizeof REFUSALS / sizeof REFUSALS[0]; i++) {
        refuse_word(&REFUSALS[i]);
    }
    refuse_pool();
    settle_importer(0);
    settle_importer(1);
    years();
    limit_of_2016();
    return 0;
}
