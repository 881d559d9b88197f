#include "npa.h"

#include <stdio.h>

#define FILES 2
#define FILE_LEN (NPA_FILE_HEADER_BYTES + NPA_ROW_BYTES)

/* Plant 11, a demand resource, committed to 5000 kW. What is not set is 0. */
static void write_file(uint8_t *file, uint32_t interval, uint32_t metered)
{
    uint8_t *row = file + NPA_FILE_HEADER_BYTES;

    npa_put32(file, NPA_FILE_FORMAT, NPA_FORMAT_1);
    npa_put32(file, NPA_FILE_INTERVAL, interval);
    npa_put32(file, NPA_FILE_NET_CONE, 30000);
    npa_put32(file, NPA_FILE_DAYS, 365);
    npa_put32(file, NPA_FILE_ROWS, 1);
    npa_put32(file, NPA_FILE_ROWS_AT, NPA_FILE_HEADER_BYTES);
    npa_put32(file, NPA_FILE_POINTS_AT, NPA_FILE_HEADER_BYTES);
    npa_put32(row, NPA_ROW_ID, 11);
    npa_put32(row, NPA_ROW_KIND, NPA_KIND_DEMAND);
    npa_put32(row, NPA_ROW_COMMITTED, 5000);
    npa_put32(row, NPA_ROW_METERED, metered);
}

int main(void)
{
    uint8_t block[NPA_BLOCK_HEADER_BYTES + NPA_ID_BYTES] = {0};
    uint8_t files[FILES * (NPA_LENGTH_BYTES + FILE_LEN)] = {0};
    uint8_t ledger[NPA_LEDGER_BYTES(1)];
    uint8_t results[FILES * NPA_RESULT_BYTES(1)];
    uint8_t count[NPA_COUNT_BYTES];
    uint8_t *next = files;
    uint64_t settled, i;
    uint32_t answer;

    npa_put32(block, NPA_BLOCK_FORMAT, NPA_FORMAT_1);
    npa_put32(block, NPA_BLOCK_NET_CONE, 30000);
    npa_put32(block, NPA_BLOCK_DAYS, 365);
    npa_put32(block, NPA_BLOCK_IDS, 1);
    npa_put32(block, NPA_BLOCK_IDS_AT, NPA_BLOCK_HEADER_BYTES);
    npa_put32(block + NPA_BLOCK_HEADER_BYTES, 0, 11);
    answer = npa_open(block, sizeof block, ledger, sizeof ledger);
    if (answer != NPA_OK) {
        fprintf(stderr, "refused on ground %u: %s\n", (unsigned)answer, npa_answer_text(answer));
        return 1;
    }

    for (i = 0; i < FILES; i++) {
        npa_put32(next, 0, FILE_LEN); /* each file after its length */
        write_file(next + NPA_LENGTH_BYTES, 1000 + (uint32_t)i, 4000 + 500 * (uint32_t)i);
        next += NPA_LENGTH_BYTES + FILE_LEN;
    }
    answer = npa_event(ledger, sizeof ledger, files, sizeof files, results, sizeof results, count, sizeof count);
    settled = answer == NPA_REFUSED_COUNT_ROOM ? 0 : npa_get64(count, 0);
    for (i = 0; i < settled; i++) { /* of a refused event too: these are settled, and the ledger has moved on */
        const uint8_t *result = results + i * NPA_RESULT_BYTES(1);
        printf("file %llu: charge of %llu cents\n", (unsigned long long)i,
               (unsigned long long)npa_get64(result + NPA_RESULT_ROW_AT(0), NPA_RESULT_ROW_CHARGE));
    }
    if (answer != NPA_OK) { /* nothing of this file is written, and those behind it were not looked at */
        fprintf(stderr, "file %llu refused on ground %u: %s\n", (unsigned long long)settled, (unsigned)answer,
                npa_answer_text(answer));
        return 1;
    }
    return 0;
}
