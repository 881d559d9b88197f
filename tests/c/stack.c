/*
 * Measures the stack that a call uses: a stretch below the caller's frame is painted before the call, and the lowest
 * byte that lost its paint is looked for afterwards. It prints the most that opening, settling and an event used, the
 * caller's own frame included, and fails if that is more than NPA_STACK_MOST.
 */
#include "full.h"

#define PAINTED 262144
#define OWN_FRAME 512
#define EVENT_FILES 3

static uint8_t block[FULL_BLOCK_LEN];
static uint8_t file[FULL_FILE_2_LEN];
static size_t file_len = FULL_FILE_LEN;
static uint8_t ledger[NPA_LEDGER_BYTES(NPA_IDS_MOST)];
static uint8_t result[NPA_RESULT_BYTES(NPA_ROWS_MOST)];
static size_t result_len = sizeof result;
static uint8_t files[EVENT_FILES * (NPA_LENGTH_BYTES + FULL_FILE_2_LEN)];
static uint8_t results[EVENT_FILES * NPA_RESULT_BYTES(NPA_ROWS_MOST)];
static uint8_t count[NPA_COUNT_BYTES];
static size_t files_len = sizeof files;

static uint32_t open_full(void)
{
    return npa_open(block, sizeof block, ledger, sizeof ledger);
}

static uint32_t settle_full(void)
{
    return npa_settle(ledger, sizeof ledger, file, file_len, result, result_len);
}

static uint32_t settle_event(void)
{
    return npa_event(ledger, sizeof ledger, files, files_len, results, sizeof results, count, sizeof count);
}

/* The stack that a call uses; it must give this answer. */
__attribute__((noinline)) static size_t used(const char *what, uint32_t (*call)(void), uint32_t answer)
{
    /* The address is kept as a number, so that the compiler makes nothing of its lying outside every object. */
    uintptr_t top = (uintptr_t)__builtin_frame_address(0);
    volatile uint8_t *at;
    uint32_t answered;

    for (at = (volatile uint8_t *)(top - OWN_FRAME); at > (volatile uint8_t *)(top - PAINTED); at--) {
        *at = FILLER;
    }
    answered = call();
    at = (volatile uint8_t *)(top - PAINTED + 1);
    while (at < (volatile uint8_t *)(top - OWN_FRAME) && *at == FILLER) {
        at++;
    }
    hold(what, 0, answered, answer);
    return (size_t)(top - (uintptr_t)at);
}

/* The greater of a number so far and what settling uses. */
static size_t settled(size_t most, uint32_t answer)
{
    size_t is = used("answer to settling", settle_full, answer);
    return is > most ? is : most;
}

/* The most that an event uses: of files to accept from this interval on, the same again, and one cut short. */
static size_t event_used(uint32_t interval)
{
    size_t accepted, refused, cut, most;
    uint32_t i;

    for (i = 0; i < EVENT_FILES; i++) {
        uint8_t *at = files + i * (NPA_LENGTH_BYTES + FULL_FILE_2_LEN);
        npa_put32(at, 0, FULL_FILE_2_LEN);
        write_full_file_2(at + NPA_LENGTH_BYTES, interval + i, interval + i);
    }
    accepted = used("answer to an event", settle_event, NPA_OK);
    hold("files settled", 0, npa_get64(count, 0), EVENT_FILES);
    refused = used("answer to an event again", settle_event, NPA_REFUSED_PAST);
    files_len = FULL_FILE_2_LEN;
    cut = used("answer to an event that is cut", settle_event, NPA_REFUSED_LENGTH);
    most = accepted > refused ? accepted : refused;
    return most > cut ? most : cut;
}

/* The most that settling files of format 2 uses, from this interval on: to accept, and to refuse in the last row. */
static size_t format_2_used(uint32_t interval)
{
    uint8_t *last = file + NPA_FILE_2_HEADER_BYTES + NPA_ROW_2_BYTES * (NPA_ROWS_MOST - 1);
    uint8_t *schedule = file + FULL_FILE_2_LEN - NPA_SCHEDULE_BYTES;
    size_t most = 0;

    file_len = FULL_FILE_2_LEN;
    write_full_file_2(file, interval, interval);
    most = settled(most, NPA_OK);
    write_full_file_2(file, interval + 1, interval);
    npa_put32(last, NPA_ROW_DISPATCHED, NPA_ROW_SCHEDULES_MOST);
    most = settled(most, NPA_REFUSED_SCHEDULES);
    write_full_file_2(file, interval + 1, interval);
    npa_put32(last, NPA_ROW_FIRST_SCHEDULE, NPA_SCHEDULES_MOST - NPA_ROW_SCHEDULES_MOST);
    npa_put32(schedule, NPA_SCHEDULE_POINTS, NPA_ROW_POINTS_MOST + 1);
    most = settled(most, NPA_REFUSED_POINTS);
    file_len = FULL_FILE_LEN;
    return most;
}

int main(void)
{
    const size_t rows = NPA_FILE_HEADER_BYTES;
    const size_t last_point = FULL_FILE_LEN - NPA_POINT_BYTES;
    size_t opening, event, format_2, settling = 0;
    uint32_t interval;

    write_full_block(block);
    opening = used("answer to opening", open_full, NPA_OK);
    for (interval = 0; interval < 5; interval++) {
        write_full_file(file, interval, interval);
        settling = settled(settling, NPA_OK);
    }
    settling = settled(settling, NPA_REFUSED_PAST);
    event = event_used(interval);
    interval += EVENT_FILES;
    format_2 = format_2_used(interval);
    settling = format_2 > settling ? format_2 : settling;
    interval++;

    /* Refusals far into the file: in the last row, its points, the room for the result. */
    write_full_file(file, interval, interval);
    npa_put32(file + rows + NPA_ROW_BYTES * (NPA_ROWS_MOST - 1), NPA_ROW_ID, NPA_IDS_MOST + 1);
    settling = settled(settling, NPA_REFUSED_ROW_IDS);
    write_full_file(file, interval, interval);
    npa_put32(file + rows + NPA_ROW_BYTES * (NPA_ROWS_MOST - 1), NPA_ROW_ONLINE, 2);
    settling = settled(settling, NPA_REFUSED_ROW);
    write_full_file(file, interval, interval);
    npa_put32(file + rows + NPA_ROW_BYTES * (NPA_ROWS_MOST - 1), NPA_ROW_FIRST_POINT,
              NPA_POINTS_MOST - NPA_ROW_POINTS_MOST);
    npa_put32(file + last_point, NPA_POINT_KW, NPA_KW_MOST + 1);
    settling = settled(settling, NPA_REFUSED_POINTS);
    write_full_file(file, interval, interval);
    result_len = sizeof result - 1;
    settling = settled(settling, NPA_REFUSED_RESULT_ROOM);
    npa_put64(ledger, NPA_LEDGER_YEAR, 1);
    settling = settled(settling, NPA_REFUSED_LEDGER);

    printf("opening %lu, settling %lu, an event %lu of at most %lu bytes of stack\n", (unsigned long)opening,
           (unsigned long)settling, (unsigned long)event, (unsigned long)NPA_STACK_MOST);
    return opening > NPA_STACK_MOST || settling > NPA_STACK_MOST || event > NPA_STACK_MOST;
}
