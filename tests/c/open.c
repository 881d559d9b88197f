/*
 * Opens the ledger of document 01's listing from C, without and with a year, and looks at every byte; then some
 * openings to refuse.
 * Fails at the first difference and says what it is; else it says nothing. It is C99 and C++11.
 */
#include "npa.h"

#include "check.h"

#define IDS 4
#define BLOCK_WORDS (5 + IDS)
#define BLOCK_LEN (4 * BLOCK_WORDS)
#define YEAR_BLOCK_WORDS (6 + IDS)
#define YEAR_BLOCK_LEN (4 * YEAR_BLOCK_WORDS)
#define LONG_BLOCK_WORDS (NPA_BLOCK_MOST / 4 + 1)
#define NEEDED NPA_LEDGER_BYTES(IDS)
#define BEYOND 40

static const uint32_t LISTING[BLOCK_WORDS] = {1, 30000, 365, IDS, 20, 11, 12, 13, 14};
static const uint32_t YEAR_LISTING[YEAR_BLOCK_WORDS] = {2, 30000, 365, IDS, 24, 2016, 11, 12, 13, 14};

/* Opens the listing's ledger by a block, in a buffer that is longer than it need be; it has these days and year. */
static void open_listing(const uint32_t *words, size_t length, uint64_t days, uint64_t year)
{
    const uint64_t head[8] = {1, 30000, days, 0, 0, IDS, 8, year};
    uint8_t *block = bytes_of(words, length);
    uint8_t *ledger = filled(NEEDED + BEYOND);
    size_t i;

    hold("answer to the listing's block of length", length, npa_open(block, length, ledger, NEEDED + BEYOND), NPA_OK);
    for (i = 0; i < 8; i++) {
        hold("ledger word", i, word(ledger, i), head[i]);
    }
    for (i = 8; i < 8 + 4 * IDS; i++) {
        hold("ledger word", i, word(ledger, i), i % 4 == 0 ? 11 + (i - 8) / 4 : 0);
    }
    hold_filler("ledger byte beyond the accounts", ledger, NEEDED, NEEDED + BEYOND);
    free(block);
    free(ledger);
}

/* Opens by a block with each year that there is, and as many days as it may have. */
static void open_years(void)
{
    uint32_t words[YEAR_BLOCK_WORDS];
    uint32_t year;

    open_listing(YEAR_LISTING, YEAR_BLOCK_LEN, 365, 2016);
    memcpy(words, YEAR_LISTING, sizeof words);
    for (year = 2018; year <= 2023; year++) {
        words[NPA_BLOCK_YEAR] = year;
        words[2] = 365;
        open_listing(words, YEAR_BLOCK_LEN, 365, year);
        words[2] = 366;
        open_listing(words, YEAR_BLOCK_LEN, 366, year);
    }
}

/* Opens by the longest block that begins with these words, and by one that is too long. */
static void open_long(const uint32_t *words, size_t length)
{
    static uint32_t padded[LONG_BLOCK_WORDS];
    uint8_t *block;
    uint8_t *ledger = filled(NEEDED);

    memcpy(padded, words, length);
    block = bytes_of(padded, NPA_BLOCK_MOST + 1);
    hold("answer to a block that is too long, format", words[0],
         npa_open(block, NPA_BLOCK_MOST + 1, ledger, NEEDED), NPA_REFUSED_BLOCK);
    hold_filler("ledger byte after a refusal", ledger, 0, NEEDED);
    hold("answer to the longest block, format", words[0], npa_open(block, NPA_BLOCK_MOST, ledger, NEEDED), NPA_OK);
    free(block);
    free(ledger);
}

/* The listing's block with one word changed, and lengths that a call may cut. */
struct refusal {
    uint32_t answer;
    size_t word;
    uint32_t value;
    size_t block_len;
    size_t ledger_len;
};

static const struct refusal REFUSALS[] = {
    {NPA_REFUSED_BLOCK, 0, 0, BLOCK_LEN, NEEDED},
    {NPA_REFUSED_BLOCK, 0, 3, BLOCK_LEN, NEEDED},
    {NPA_REFUSED_BLOCK, 0, 2, 20, NEEDED},
    {NPA_REFUSED_BLOCK, 0, 2, 23, NEEDED},
    {NPA_REFUSED_BLOCK, 0, 1, 19, NEEDED},
    {NPA_REFUSED_BLOCK, 0, 1, 0, NEEDED},
    {NPA_REFUSED_TERMS, 1, 0, BLOCK_LEN, NEEDED},
    {NPA_REFUSED_TERMS, 1, 200001, BLOCK_LEN, NEEDED},
    {NPA_REFUSED_TERMS, 2, 367, BLOCK_LEN, NEEDED},
    {NPA_REFUSED_ID_TABLE, 3, 0, BLOCK_LEN, NEEDED},
    {NPA_REFUSED_ID_TABLE, 3, 5, BLOCK_LEN, NEEDED},
    {NPA_REFUSED_ID_TABLE, 4, 19, BLOCK_LEN, NEEDED},
    {NPA_REFUSED_ID_TABLE, 4, 21, BLOCK_LEN, NEEDED},
    {NPA_REFUSED_ID_TABLE, 4, 0xfffffff0, BLOCK_LEN, NEEDED},
    {NPA_REFUSED_ID_TABLE, 0, 1, BLOCK_LEN - 1, NEEDED},
    {NPA_REFUSED_IDS, 5, 0, BLOCK_LEN, NEEDED},
    {NPA_REFUSED_IDS, 8, 13, BLOCK_LEN, NEEDED},
    {NPA_REFUSED_LEDGER_ROOM, 0, 1, BLOCK_LEN, NEEDED - 1},
    {NPA_REFUSED_LEDGER_ROOM, 0, 1, BLOCK_LEN, 0},
    /* Two faults: the first ground is answered. */
    {NPA_REFUSED_TERMS, 1, 0, 20, 0},
    {NPA_REFUSED_ID_TABLE, 3, 513, BLOCK_LEN, 0},
    {NPA_REFUSED_IDS, 6, 11, BLOCK_LEN, 0},
};

/* The block with a year, with another year and one more word changed. */
struct year_refusal {
    uint32_t year;
    struct refusal refusal;
};

static const struct year_refusal YEAR_REFUSALS[] = {
    {2016, {NPA_REFUSED_BLOCK, 0, 2, 19, NEEDED}},
    {2016, {NPA_REFUSED_BLOCK, 0, 2, 20, NEEDED}},
    {2016, {NPA_REFUSED_BLOCK, 0, 2, 23, NEEDED}},
    {2016, {NPA_REFUSED_BLOCK, 0, 258, YEAR_BLOCK_LEN, NEEDED}},
    {2016, {NPA_REFUSED_ID_TABLE, 0, 2, 24, NEEDED}},
    {2016, {NPA_REFUSED_ID_TABLE, 0, 2, YEAR_BLOCK_LEN - 1, NEEDED}},
    {2016, {NPA_REFUSED_ID_TABLE, 4, 20, YEAR_BLOCK_LEN, NEEDED}},
    {2016, {NPA_REFUSED_ID_TABLE, 4, 23, YEAR_BLOCK_LEN, NEEDED}},
    {2016, {NPA_REFUSED_ID_TABLE, 4, 25, YEAR_BLOCK_LEN, NEEDED}},
    {0, {NPA_REFUSED_YEAR, 0, 2, YEAR_BLOCK_LEN, NEEDED}},
    {2015, {NPA_REFUSED_YEAR, 0, 2, YEAR_BLOCK_LEN, NEEDED}},
    {2017, {NPA_REFUSED_YEAR, 0, 2, YEAR_BLOCK_LEN, NEEDED}},
    {2024, {NPA_REFUSED_YEAR, 0, 2, YEAR_BLOCK_LEN, NEEDED}},
    {65536 + 2016, {NPA_REFUSED_YEAR, 0, 2, YEAR_BLOCK_LEN, NEEDED}},
    {2016, {NPA_REFUSED_YEAR, 2, 366, YEAR_BLOCK_LEN, NEEDED}},
    /* Two faults: the year comes after the terms and before the ids. */
    {2017, {NPA_REFUSED_TERMS, 1, 0, YEAR_BLOCK_LEN, NEEDED}},
    {2016, {NPA_REFUSED_TERMS, 2, 367, YEAR_BLOCK_LEN, NEEDED}},
    {2017, {NPA_REFUSED_YEAR, 3, 0, YEAR_BLOCK_LEN, NEEDED}},
    {2017, {NPA_REFUSED_YEAR, 6, 0, YEAR_BLOCK_LEN, NEEDED}},
    {2017, {NPA_REFUSED_YEAR, 0, 2, 24, 0}},
    {2016, {NPA_REFUSED_IDS, 6, 0, YEAR_BLOCK_LEN, 0}},
    {2016, {NPA_REFUSED_LEDGER_ROOM, 0, 2, YEAR_BLOCK_LEN, NEEDED - 1}},
};

/* Makes a call to refuse, with one of these words changed; the ledger buffer must stay as it was. */
static void refuse(const char *what, size_t which, uint32_t *words, const struct refusal *refusal)
{
    uint8_t *block;
    uint8_t *ledger = filled(refusal->ledger_len);

    words[refusal->word] = refusal->value;
    block = bytes_of(words, refusal->block_len);
    hold(what, which, npa_open(block, refusal->block_len, ledger, refusal->ledger_len), refusal->answer);
    hold_filler("ledger byte after a refusal", ledger, 0, refusal->ledger_len);
    free(block);
    free(ledger);
}

static void refuse_all(void)
{
    uint32_t words[YEAR_BLOCK_WORDS];
    size_t i;

    for (i = 0; i < sizeof REFUSALS / sizeof REFUSALS[0]; i++) {
        memcpy(words, LISTING, sizeof LISTING);
        refuse("answer to refusal", i, words, &REFUSALS[i]);
    }
    for (i = 0; i < sizeof YEAR_REFUSALS / sizeof YEAR_REFUSALS[0]; i++) {
        memcpy(words, YEAR_LISTING, sizeof YEAR_LISTING);
        words[NPA_BLOCK_YEAR] = YEAR_REFUSALS[i].year;
        refuse("answer to refusal with a year", i, words, &YEAR_REFUSALS[i].refusal);
    }
}

int main(void)
{
    open_listing(LISTING, BLOCK_LEN, 365, 0);
    open_years();
    open_long(LISTING, BLOCK_LEN);
    open_long(YEAR_LISTING, YEAR_BLOCK_LEN);
    refuse_all();
    return 0;
}
