/*
 * Settles events from C: three files in one call, the same three one by one, a refused file among them, buffers that
 * end early, too short a count, and no files at all.
 * Fails at the first difference and says what it is; else it says nothing. It is C99 and C++11.
 */
#include "npa.h"

#include "check.h"

#define FILES 3
#define BLOCK_LEN (NPA_BLOCK_HEADER_BYTES + NPA_ID_BYTES)
#define FILE_LEN (NPA_FILE_HEADER_BYTES + NPA_ROW_BYTES)
#define STEP (NPA_LENGTH_BYTES + FILE_LEN)
#define FILES_LEN ((size_t)FILES * STEP)
#define LEDGER_LEN NPA_LEDGER_BYTES(1)
#define RESULT_LEN NPA_RESULT_BYTES(1)
#define RESULTS_LEN (FILES * RESULT_LEN)
#define BEYOND 40

/* What plant 11, a demand resource committed to 5000 kW, gives in the intervals from 1000 on. */
static const uint32_t METERED[FILES] = {4000, 4500, 6000};
/* 1000 and 500 kW short at 30000 * 365 / 360000 cents a kW, to the nearest cent: two thirds of a cent are rounded up,
 * one third down. The third file has bonus, and gets all that was charged. */
static const uint64_t CHARGE[FILES] = {30417, 15208, 0};
static const uint64_t CREDIT[FILES] = {0, 0, 45625};
static const uint64_t CARRIED[FILES] = {30417, 45625, 0};

/* The buffers of a call, each of just its length. */
struct call {
    uint8_t *ledger, *files, *result, *count;
    size_t ledger_len, files_len, result_len, count_len;
};

/* A ledger as opening leaves it. */
static uint8_t *opened(void)
{
    static const uint32_t BLOCK[BLOCK_LEN / 4] = {1, 30000, 365, 1, NPA_BLOCK_HEADER_BYTES, 11};
    uint8_t *block = bytes_of(BLOCK, BLOCK_LEN);
    uint8_t *ledger = buffer(LEDGER_LEN);
    hold("answer to an opening block of length", BLOCK_LEN, npa_open(block, BLOCK_LEN, ledger, LEDGER_LEN), NPA_OK);
    free(block);
    return ledger;
}

/* The first so many bytes of the event's files. */
static uint8_t *event_files(size_t length)
{
    uint32_t words[FILES_LEN / 4];
    uint32_t *at = words;
    size_t i;

    memset(words, 0, sizeof words);
    for (i = 0; i < FILES; i++, at += STEP / 4) {
        const uint32_t header[11] = {FILE_LEN, 1, 1000 + (uint32_t)i, 30000, 365, 0, 0, 1, 40, 0, 40};
        const uint32_t row[5] = {11, NPA_KIND_DEMAND, 5000, 0, METERED[i]};
        memcpy(at, header, sizeof header);
        memcpy(at + 11, row, sizeof row);
    }
    return bytes_of(words, length);
}

/* A call on so many bytes of the event, into an opened ledger; result and count are filled. */
static struct call call_on(size_t files_len, size_t result_len, size_t count_len)
{
    struct call call;
    call.ledger = opened();
    call.files = event_files(files_len);
    call.result = filled(result_len);
    call.count = filled(count_len);
    call.ledger_len = LEDGER_LEN;
    call.files_len = files_len;
    call.result_len = result_len;
    call.count_len = count_len;
    return call;
}

static uint32_t settle(struct call *call)
{
    return npa_event(call->ledger, call->ledger_len, call->files, call->files_len, call->result, call->result_len,
                     call->count, call->count_len);
}

static void release(struct call *call)
{
    free(call->ledger);
    free(call->files);
    free(call->result);
    free(call->count);
}

/* Holds a call to an answer, and its buffers to what so many single calls leave. */
static void hold_call(struct call *call, uint32_t answer, size_t settled)
{
    uint8_t *ledger = opened();
    uint8_t *files = event_files(FILES_LEN);
    uint8_t *result = filled(RESULTS_LEN);
    size_t i;

    hold("answer to an event of files settled", settled, settle(call), answer);
    for (i = 0; i < settled; i++) {
        const uint8_t *part = call->result + RESULT_LEN * i;
        hold("answer to file", i,
             npa_settle(ledger, LEDGER_LEN, files + STEP * i + NPA_LENGTH_BYTES, FILE_LEN, result + RESULT_LEN * i,
                        RESULT_LEN),
             NPA_OK);
        hold("charge of file", i, word(part, 8 + NPA_RESULT_ROW_CHARGE), CHARGE[i]);
        hold("credit of file", i, word(part, 8 + NPA_RESULT_ROW_CREDIT), CREDIT[i]);
        hold("carried by file", i, word(part, NPA_RESULT_CARRIED), CARRIED[i]);
    }
    hold("files settled", settled, word(call->count, 0), settled);
    hold_filler("count byte beyond the word", call->count, NPA_COUNT_BYTES, call->count_len);
    hold("ledger as by single calls", settled, memcmp(call->ledger, ledger, LEDGER_LEN) == 0, 1);
    hold("results as by single calls", settled, memcmp(call->result, result, RESULT_LEN * settled) == 0, 1);
    hold_filler("result byte beyond the settled files", call->result, RESULT_LEN * settled, call->result_len);
    free(ledger);
    free(files);
    free(result);
}

/* The event cut to so many bytes, with room for results of so many. */
static void cut(size_t files_len, size_t result_len, uint32_t answer, size_t settled)
{
    struct call call = call_on(files_len, result_len, NPA_COUNT_BYTES + 3);
    hold_call(&call, answer, settled);
    release(&call);
}

/* The event with one word of its second file changed, or of the length before it. */
static void refuse_second(size_t word_number, uint32_t value, uint32_t answer)
{
    struct call call = call_on(FILES_LEN, RESULTS_LEN + BEYOND, NPA_COUNT_BYTES);
    npa_put32(call.files + STEP, word_number, value);
    hold_call(&call, answer, 1);
    release(&call);
}

/* A count that is too short comes first, whatever else there is, and nothing is written. */
static void refuse_count(size_t files_len, size_t count_len)
{
    struct call call = call_on(files_len, RESULTS_LEN, count_len);
    uint8_t *untouched = opened();
    hold("answer with count bytes", count_len, settle(&call), NPA_REFUSED_COUNT_ROOM);
    hold("ledger unchanged with count bytes", count_len, memcmp(call.ledger, untouched, LEDGER_LEN) == 0, 1);
    hold_filler("result byte with a short count", call.result, 0, RESULTS_LEN);
    hold_filler("byte of a short count", call.count, 0, count_len);
    free(untouched);
    release(&call);
}

/* No files: nothing is settled, whatever bytes the ledger has; with files they are refused. */
static void any_ledger(size_t ledger_len, size_t files_len, uint32_t answer)
{
    struct call call = call_on(files_len, RESULTS_LEN, NPA_COUNT_BYTES);
    free(call.ledger);
    call.ledger = filled(ledger_len);
    call.ledger_len = ledger_len;
    hold("answer with ledger bytes", ledger_len, settle(&call), answer);
    hold("files settled into no ledger", ledger_len, word(call.count, 0), 0);
    hold_filler("byte of no ledger", call.ledger, 0, ledger_len);
    hold_filler("result byte with no ledger", call.result, 0, RESULTS_LEN);
    release(&call);
}

int main(void)
{
    size_t i;
    cut(FILES_LEN, RESULTS_LEN, NPA_OK, 3);
    cut(FILES_LEN, RESULTS_LEN + BEYOND, NPA_OK, 3);
    cut(STEP, RESULTS_LEN, NPA_OK, 1);
    cut(0, 0, NPA_OK, 0);
    for (i = 1; i < STEP; i++) {
        cut(i, RESULTS_LEN, NPA_REFUSED_LENGTH, 0);
        cut(STEP + i, RESULTS_LEN, NPA_REFUSED_LENGTH, 1);
    }
    cut(FILES_LEN, RESULTS_LEN - 1, NPA_REFUSED_RESULT_ROOM, 2);
    cut(FILES_LEN, RESULT_LEN, NPA_REFUSED_RESULT_ROOM, 1);
    cut(FILES_LEN, 0, NPA_REFUSED_RESULT_ROOM, 0);
    refuse_second(0, 0, NPA_REFUSED_FILE);
    refuse_second(0, 2 * STEP, NPA_REFUSED_LENGTH);
    refuse_second(0, UINT32_MAX, NPA_REFUSED_LENGTH);
    refuse_second(1 + NPA_FILE_FORMAT, 3, NPA_REFUSED_FILE);
    refuse_second(1 + NPA_FILE_INTERVAL, 1000, NPA_REFUSED_PAST);
    refuse_second(11 + NPA_ROW_KIND, 5, NPA_REFUSED_ROW);
    for (i = 0; i < NPA_COUNT_BYTES; i++) {
        refuse_count(FILES_LEN, i);
        refuse_count(3, i);
        refuse_count(0, i);
    }
    any_ledger(0, 0, NPA_OK);
    any_ledger(LEDGER_LEN, 0, NPA_OK);
    any_ledger(0, 3, NPA_REFUSED_LENGTH);
    any_ledger(0, STEP - 1, NPA_REFUSED_LENGTH);
    any_ledger(0, STEP, NPA_REFUSED_LEDGER);
    any_ledger(LEDGER_LEN, FILES_LEN, NPA_REFUSED_LEDGER);
    return 0;
}
