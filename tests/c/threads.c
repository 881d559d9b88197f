/*
 * Calls on different ledgers at once: each thread settles files of its own, of both formats by turns, into a ledger of
 * its own, and every ledger and result must be what the same calls gave one after the other.
 */
#include "full.h"

#include <pthread.h>

#define THREADS 8
#define FILES 40

struct year {
    uint32_t salt;
    uint8_t file[FULL_FILE_2_LEN];
    uint8_t ledger[NPA_LEDGER_BYTES(NPA_IDS_MOST)];
    uint8_t results[FILES][NPA_RESULT_BYTES(NPA_ROWS_MOST)];
};

static uint8_t block[FULL_BLOCK_LEN];

static void *settle_year(void *argument)
{
    struct year *year = (struct year *)argument;
    uint32_t i;

    for (i = 0; i < FILES; i++) {
        size_t length = i % 2 == 0 ? FULL_FILE_LEN : FULL_FILE_2_LEN;
        (i % 2 == 0 ? write_full_file : write_full_file_2)(year->file, i, year->salt + i);
        hold("answer to file", i,
             npa_settle(year->ledger, sizeof year->ledger, year->file, length, year->results[i],
                        sizeof year->results[i]),
             NPA_OK);
    }
    return NULL;
}

/* So many years, opened and not settled. */
static struct year *opened(void)
{
    struct year *years = (struct year *)buffer(THREADS * sizeof *years);
    uint32_t i;
    for (i = 0; i < THREADS; i++) {
        years[i].salt = i;
        hold("answer to opening", i, npa_open(block, sizeof block, years[i].ledger, sizeof years[i].ledger), NPA_OK);
    }
    return years;
}

int main(void)
{
    pthread_t threads[THREADS];
    struct year *one_by_one, *at_once;
    size_t i;

    write_full_block(block);
    one_by_one = opened();
    at_once = opened();
    for (i = 0; i < THREADS; i++) {
        settle_year(&one_by_one[i]);
    }
    for (i = 0; i < THREADS; i++) {
        hold("start of thread", i, (uint64_t)pthread_create(&threads[i], NULL, settle_year, &at_once[i]), 0);
    }
    for (i = 0; i < THREADS; i++) {
        hold("end of thread", i, (uint64_t)pthread_join(threads[i], NULL), 0);
        hold("the year of thread", i, memcmp(&at_once[i], &one_by_one[i], sizeof at_once[i]) == 0, 1);
    }
    hold("two ledgers differ", 0, memcmp(at_once[0].ledger, at_once[1].ledger, sizeof at_once[0].ledger) != 0, 1);
    free(one_by_one);
    free(at_once);
    return 0;
}
