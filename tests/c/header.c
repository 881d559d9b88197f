/*
 * The names of npa.h. The file of document 01's listing is written by them, compared with the same file in plain
 * words, settled, and the result and the ledger are read by them. Then words at odd addresses and of either sign.
 * With an argument it prints what each answer means. It is C99 and C++11.
 */
#include "npa.h"

#include "check.h"

#define ROWS 2
#define POINTS 2
#define BLOCK_LEN (NPA_BLOCK_HEADER_BYTES + NPA_ID_BYTES * ROWS)
#define FILE_LEN (NPA_FILE_HEADER_BYTES + NPA_ROW_BYTES * ROWS + NPA_POINT_BYTES * POINTS)

static const uint32_t BLOCK[BLOCK_LEN / 4] = {1, 30000, 365, ROWS, 20, 12, 14};

/* Rows 12 and 14 of the listing, with another adjustment, imports and a negative price, so that signs are met. */
static const uint32_t FILE_WORDS[FILE_LEN / 4] = {
    1, 1000, 30000, 365, 1, (uint32_t)-7, ROWS, 40, POINTS, 40 + 56 * ROWS,
    12, 0, 50000, 60000, 20000, (uint32_t)-5000, 300, 35000, 25000, 10000, 1, (uint32_t)-50, 0, 2,
    14, 1, 5000, 0, 15001, 0, 0, 0, 0, 0, 0, 0, 0, 0,
    (uint32_t)-100, 10000, 6000, 50000,
};

/* Holds bytes to these words, which a plain machine word has. */
static void hold_words(const char *what, const uint8_t *bytes, const uint32_t *words, size_t length)
{
    uint8_t *must_be = bytes_of(words, length);
    size_t i;
    for (i = 0; i < length; i++) {
        hold(what, i, bytes[i], must_be[i]);
    }
    free(must_be);
}

static void write_block(uint8_t *block)
{
    npa_put32(block, NPA_BLOCK_FORMAT, NPA_FORMAT_1);
    npa_put32(block, NPA_BLOCK_NET_CONE, 30000);
    npa_put32(block, NPA_BLOCK_DAYS, 365);
    npa_put32(block, NPA_BLOCK_IDS, ROWS);
    npa_put32(block, NPA_BLOCK_IDS_AT, NPA_BLOCK_HEADER_BYTES);
    npa_put32(block + NPA_BLOCK_HEADER_BYTES, 0, 12);
    npa_put32(block + NPA_BLOCK_HEADER_BYTES, 1, 14);
}

static void write_file(uint8_t *file)
{
    uint8_t *row = file + NPA_FILE_HEADER_BYTES;
    uint8_t *point = row + NPA_ROW_BYTES * ROWS;

    memset(file, 0, FILE_LEN);
    npa_put32(file, NPA_FILE_FORMAT, NPA_FORMAT_1);
    npa_put32(file, NPA_FILE_INTERVAL, 1000);
    npa_put32(file, NPA_FILE_NET_CONE, 30000);
    npa_put32(file, NPA_FILE_DAYS, 365);
    npa_put32(file, NPA_FILE_REGION_WIDE, 1);
    npa_put32(file, NPA_FILE_IMPORTS, (uint32_t)-7);
    npa_put32(file, NPA_FILE_ROWS, ROWS);
    npa_put32(file, NPA_FILE_ROWS_AT, NPA_FILE_HEADER_BYTES);
    npa_put32(file, NPA_FILE_POINTS, POINTS);
    npa_put32(file, NPA_FILE_POINTS_AT, NPA_FILE_HEADER_BYTES + NPA_ROW_BYTES * ROWS);
    npa_put32(row, NPA_ROW_ID, 12);
    npa_put32(row, NPA_ROW_KIND, NPA_KIND_GENERATION);
    npa_put32(row, NPA_ROW_COMMITTED, 50000);
    npa_put32(row, NPA_ROW_OWNED, 60000);
    npa_put32(row, NPA_ROW_METERED, 20000);
    npa_put32(row, NPA_ROW_ADJUSTMENT, (uint32_t)-5000);
    npa_put32(row, NPA_ROW_PLANNED, 300);
    npa_put32(row, NPA_ROW_FORCED, 35000);
    npa_put32(row, NPA_ROW_MAXIMUM, 25000);
    npa_put32(row, NPA_ROW_MINIMUM, 10000);
    npa_put32(row, NPA_ROW_ONLINE, 1);
    npa_put32(row, NPA_ROW_LMP, (uint32_t)-50);
    npa_put32(row, NPA_ROW_FIRST_POINT, 0);
    npa_put32(row, NPA_ROW_POINTS, POINTS);
    row += NPA_ROW_BYTES;
    npa_put32(row, NPA_ROW_ID, 14);
    npa_put32(row, NPA_ROW_KIND, NPA_KIND_DEMAND);
    npa_put32(row, NPA_ROW_COMMITTED, 5000);
    npa_put32(row, NPA_ROW_METERED, 15001);
    npa_put32(point, NPA_POINT_PRICE, (uint32_t)-100);
    npa_put32(point, NPA_POINT_KW, 10000);
    point += NPA_POINT_BYTES;
    npa_put32(point, NPA_POINT_PRICE, 6000);
    npa_put32(point, NPA_POINT_KW, 50000);
}

/* The charge and the credit of a row in a result are those of its account, since nothing was settled before. */
static void hold_row(const uint8_t *result, const uint8_t *ledger, size_t number, uint64_t committed)
{
    const uint8_t *row = result + NPA_RESULT_ROW_AT(number);
    const uint8_t *account = ledger + NPA_ACCOUNT_AT(number);

    hold("commitment of account", number, npa_get64(account, NPA_ACCOUNT_COMMITTED), committed);
    hold("charge of account", number, npa_get64(account, NPA_ACCOUNT_CHARGED), npa_get64(row, NPA_RESULT_ROW_CHARGE));
    hold("credit of account", number, npa_get64(account, NPA_ACCOUNT_CREDITED), npa_get64(row, NPA_RESULT_ROW_CREDIT));
}

/* Settles the file and reads every word of the result by its name; the figures are worked by hand. */
static void settle(void)
{
    uint8_t block[BLOCK_LEN];
    uint8_t file[FILE_LEN];
    uint8_t ledger[NPA_LEDGER_BYTES(ROWS)];
    uint8_t result[NPA_RESULT_BYTES(ROWS)];
    const uint8_t *first = result + NPA_RESULT_ROW_AT(0);
    const uint8_t *second = result + NPA_RESULT_ROW_AT(1);

    write_block(block);
    hold_words("block byte", block, BLOCK, BLOCK_LEN);
    write_file(file);
    hold_words("file byte", file, FILE_WORDS, FILE_LEN);
    hold("answer to opening", 0, npa_open(block, sizeof block, ledger, sizeof ledger), NPA_OK);
    hold("answer to settling", 0, npa_settle(ledger, sizeof ledger, file, sizeof file, result, sizeof result), NPA_OK);

    /* Actual is 20000 - 5000; the numerator has 10001 kW of bonus besides, and no imports, since they are negative. */
    hold("numerator", 0, npa_get64(result, NPA_RESULT_NUMERATOR), 25001);
    hold("denominator", 0, npa_get64(result, NPA_RESULT_DENOMINATOR), 50000);
    hold("ratio", 0, npa_get64(result, NPA_RESULT_RATIO), 500020);
    hold("expected", 0, npa_get64(first, NPA_RESULT_ROW_EXPECTED), 25001);
    hold("actual", 0, npa_get64(first, NPA_RESULT_ROW_ACTUAL), 15000);
    hold("outage", 0, npa_get64(first, NPA_RESULT_ROW_OUTAGE), 300);
    /* The least of 25000, 25001 and 60000 - 300 - 35000, less the actual: 10000 + 40000 * 50 / 6100 is scheduled. */
    hold("economic", 0, npa_get64(first, NPA_RESULT_ROW_ECONOMIC), 9700);
    hold("shortfall", 0, npa_get64(first, NPA_RESULT_ROW_SHORTFALL), 1);
    hold("charge", 0, npa_get64(first, NPA_RESULT_ROW_CHARGE), (30000 * 365 + 180000) / 360000);
    hold("bonus", 1, npa_get64(second, NPA_RESULT_ROW_BONUS), 10001);
    hold("credit", 1, npa_get64(second, NPA_RESULT_ROW_CREDIT), 30);
    hold("charges", 0, npa_get64(result, NPA_RESULT_CHARGES), 30);
    hold("credits", 0, npa_get64(result, NPA_RESULT_CREDITS), 30);
    hold("carried", 0, npa_get64(result, NPA_RESULT_CARRIED), 0);
    hold("total bonus", 0, npa_get64(result, NPA_RESULT_BONUS), 10001);
    hold("rows", 0, npa_get64(result, NPA_RESULT_ROWS), ROWS);

    hold("ledger's format", 0, npa_get64(ledger, NPA_LEDGER_FORMAT), NPA_FORMAT_1);
    hold("ledger's Net CONE", 0, npa_get64(ledger, NPA_LEDGER_NET_CONE), 30000);
    hold("ledger's days", 0, npa_get64(ledger, NPA_LEDGER_DAYS), 365);
    hold("earliest interval", 0, npa_get64(ledger, NPA_LEDGER_EARLIEST), 1001);
    hold("ledger's carried", 0, npa_get64(ledger, NPA_LEDGER_CARRIED), 0);
    hold("accounts", 0, npa_get64(ledger, NPA_LEDGER_ACCOUNTS), ROWS);
    hold("offset of accounts", 0, 8 * npa_get64(ledger, NPA_LEDGER_ACCOUNTS_AT), NPA_LEDGER_HEADER_BYTES);
    hold("last word of the ledger's header", 0, npa_get64(ledger, NPA_LEDGER_YEAR), 0);
    hold("id of account", 0, npa_get64(ledger + NPA_ACCOUNT_AT(0), NPA_ACCOUNT_ID), 12);
    hold("id of account", 1, npa_get64(ledger + NPA_ACCOUNT_AT(1), NPA_ACCOUNT_ID), 14);
    hold_row(result, ledger, 0, 50000);
    hold_row(result, ledger, 1, 5000);
}

/* Settles the file as an event of one, and once more, when it is refused; then with too short a count. */
static void event(void)
{
    uint8_t block[BLOCK_LEN];
    uint8_t files[NPA_LENGTH_BYTES + FILE_LEN];
    uint8_t ledger[NPA_LEDGER_BYTES(ROWS)];
    uint8_t result[NPA_RESULT_BYTES(ROWS)];
    uint8_t count[NPA_COUNT_BYTES];

    write_block(block);
    npa_put32(files, 0, FILE_LEN);
    write_file(files + NPA_LENGTH_BYTES);
    hold("answer to opening", 0, npa_open(block, sizeof block, ledger, sizeof ledger), NPA_OK);
    hold("answer to an event", 0,
         npa_event(ledger, sizeof ledger, files, sizeof files, result, sizeof result, count, sizeof count), NPA_OK);
    hold("files settled", 0, npa_get64(count, 0), 1);
    hold("charge in an event", 0, npa_get64(result + NPA_RESULT_ROW_AT(0), NPA_RESULT_ROW_CHARGE), 30);
    hold_row(result, ledger, 0, 50000);
    hold_row(result, ledger, 1, 5000);
    hold("answer to the event again", 0,
         npa_event(ledger, sizeof ledger, files, sizeof files, result, sizeof result, count, sizeof count),
         NPA_REFUSED_PAST);
    hold("files settled again", 0, npa_get64(count, 0), 0);
    hold("answer to a cut event", 0,
         npa_event(ledger, sizeof ledger, files, sizeof files - 1, result, sizeof result, count, sizeof count),
         NPA_REFUSED_LENGTH);
    hold("answer with a short count", 0,
         npa_event(ledger, sizeof ledger, files, sizeof files, result, sizeof result, count, NPA_COUNT_BYTES - 1),
         NPA_REFUSED_COUNT_ROOM);
}

/* Words come back as they were written, at any address, and touch no byte beside them. */
static void words(void)
{
    static const int32_t SIGNED[] = {0, 1, -1, 1000000, -1000000, INT32_MAX, -INT32_MAX - 1};
    static const uint64_t LONG[] = {0, 1, UINT32_MAX, (uint64_t)UINT32_MAX + 1, NPA_POOL_MOST, UINT64_MAX};
    uint8_t bytes[40];
    size_t at, i, j;

    for (at = 0; at < 8; at++) {
        for (i = 0; i < sizeof SIGNED / sizeof SIGNED[0]; i++) {
            memset(bytes, FILLER, sizeof bytes);
            npa_put32(bytes + at, 2, (uint32_t)SIGNED[i]);
            hold("word", i, npa_get32(bytes + at, 2), (uint32_t)SIGNED[i]);
            hold("signed word", i, npa_get32_signed(bytes + at, 2) == SIGNED[i], 1);
            hold_filler("byte before a word", bytes, 0, at + 8);
            hold_filler("byte after a word", bytes, at + 12, sizeof bytes);
        }
        for (i = 0; i < sizeof LONG / sizeof LONG[0]; i++) {
            memset(bytes, FILLER, sizeof bytes);
            npa_put64(bytes + at, 1, LONG[i]);
            hold("long word", i, npa_get64(bytes + at, 1), LONG[i]);
            for (j = 0; j < 8; j++) {
                hold("byte of a long word", j, bytes[at + 8 + j], (LONG[i] >> (8 * j)) & 255);
            }
            hold_filler("byte before a long word", bytes, 0, at + 8);
            hold_filler("byte after a long word", bytes, at + 16, sizeof bytes);
        }
    }
}

/* Whether an answer is one of the module's. */
static int has_meaning(uint32_t answer)
{
    return strcmp(npa_answer_text(answer), npa_answer_text(UINT32_MAX)) != 0;
}

int main(int count, char **arguments)
{
    uint32_t answer;
    (void)arguments;
    if (count > 1) {
        for (answer = NPA_REFUSED_BLOCK; answer <= NPA_REFUSED_YEAR; answer++) {
            if (has_meaning(answer)) {
                printf("| %u | %s |\n", (unsigned)answer, npa_answer_text(answer));
            }
        }
        return 0;
    }
    hold("text of 0", 0, strcmp(npa_answer_text(NPA_OK), "accepted") == 0, 1);
    for (answer = NPA_OK; answer < 100; answer++) {
        hold("meaning of", answer, (uint64_t)has_meaning(answer),
             answer <= NPA_REFUSED_POOL || answer == NPA_REFUSED_SCHEDULES || answer == NPA_REFUSED_COUNT_ROOM ||
                 answer == NPA_REFUSED_LENGTH || answer == NPA_REFUSED_YEAR);
    }
    settle();
    event();
    words();
    return 0;
}
