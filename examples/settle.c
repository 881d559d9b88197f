#include "npa.h"

#include <stdio.h>

int main(void)
{
    /* A year of 365 days at a Net CONE of 30000 cents per MW-day, with plant 11. */
    uint8_t block[NPA_BLOCK_HEADER_BYTES + NPA_ID_BYTES] = {0};
    /* Interval 1000: plant 11, a demand resource, committed to 5000 kW, metered 4000 kW. What is not set is 0. */
    uint8_t file[NPA_FILE_HEADER_BYTES + NPA_ROW_BYTES] = {0};
    uint8_t *row = file + NPA_FILE_HEADER_BYTES;
    uint8_t ledger[NPA_LEDGER_BYTES(1)];
    uint8_t result[NPA_RESULT_BYTES(1)];
    uint32_t answer;

    npa_put32(block, NPA_BLOCK_FORMAT, NPA_FORMAT_1);
    npa_put32(block, NPA_BLOCK_NET_CONE, 30000);
    npa_put32(block, NPA_BLOCK_DAYS, 365);
    npa_put32(block, NPA_BLOCK_IDS, 1);
    npa_put32(block, NPA_BLOCK_IDS_AT, NPA_BLOCK_HEADER_BYTES);
    npa_put32(block + NPA_BLOCK_HEADER_BYTES, 0, 11);

    npa_put32(file, NPA_FILE_FORMAT, NPA_FORMAT_1);
    npa_put32(file, NPA_FILE_INTERVAL, 1000);
    npa_put32(file, NPA_FILE_NET_CONE, 30000);
    npa_put32(file, NPA_FILE_DAYS, 365);
    npa_put32(file, NPA_FILE_ROWS, 1);
    npa_put32(file, NPA_FILE_ROWS_AT, NPA_FILE_HEADER_BYTES);
    npa_put32(file, NPA_FILE_POINTS_AT, NPA_FILE_HEADER_BYTES); /* no points, but an offset within the file */
    npa_put32(row, NPA_ROW_ID, 11);
    npa_put32(row, NPA_ROW_KIND, NPA_KIND_DEMAND);
    npa_put32(row, NPA_ROW_COMMITTED, 5000);
    npa_put32(row, NPA_ROW_METERED, 4000);

    answer = npa_open(block, sizeof block, ledger, sizeof ledger);
    if (answer == NPA_OK) {
        answer = npa_settle(ledger, sizeof ledger, file, sizeof file, result, sizeof result);
    }
    if (answer != NPA_OK) { /* every byte is as it was */
        fprintf(stderr, "refused on ground %u: %s\n", (unsigned)answer, npa_answer_text(answer));
        return 1;
    }
    printf("charge of %llu cents\n",
           (unsigned long long)npa_get64(result + NPA_RESULT_ROW_AT(0), NPA_RESULT_ROW_CHARGE));
    return 0;
}
