/*
 * files FOLDER N: writes an opening block, `block`, and N interval files, `0001` and on, of rising intervals. Twenty
 * plants of every kind fall short of what is expected of them and exceed it by turns, so that every file moves money.
 */
#include "npa.h"

#include "check.h"

#define PLANTS 20
#define POINTS 3
#define BLOCK_LEN (NPA_BLOCK_HEADER_BYTES + NPA_ID_BYTES * PLANTS)
#define FILE_LEN (NPA_FILE_HEADER_BYTES + NPA_ROW_BYTES * PLANTS + NPA_POINT_BYTES * POINTS)

/* The next of a fixed sequence of numbers below a bound. */
static uint32_t drawn(uint32_t below)
{
    static uint64_t state = 1;
    state = state * UINT64_C(6364136223846793005) + 1442695040888963407u;
    return (uint32_t)(state >> 33) % below;
}

static void write_out(const char *folder, const char *name, const uint8_t *bytes, size_t length)
{
    char path[4096];
    FILE *file;
    snprintf(path, sizeof path, "%s/%s", folder, name);
    file = fopen(path, "wb");
    if (file == NULL || fwrite(bytes, 1, length, file) != length || fclose(file) != 0) {
        perror(path);
        exit(1);
    }
}

static void write_row(uint8_t *row, uint32_t id)
{
    uint32_t kind = id % 5;
    uint32_t committed = kind == NPA_KIND_ENERGY_ONLY ? 0 : 20000 + 100 * id;
    npa_put32(row, NPA_ROW_ID, id);
    npa_put32(row, NPA_ROW_KIND, kind);
    npa_put32(row, NPA_ROW_COMMITTED, committed);
    npa_put32(row, NPA_ROW_OWNED, 60000);
    npa_put32(row, NPA_ROW_METERED, drawn(50000));
    npa_put32(row, NPA_ROW_ADJUSTMENT, (uint32_t)-(int32_t)drawn(500));
    npa_put32(row, NPA_ROW_FORCED, drawn(50000));
    npa_put32(row, NPA_ROW_MAXIMUM, 60000);
    npa_put32(row, NPA_ROW_MINIMUM, 1000);
    npa_put32(row, NPA_ROW_ONLINE, 1);
    npa_put32(row, NPA_ROW_LMP, drawn(9000));
    npa_put32(row, NPA_ROW_POINTS, POINTS);
}

static void write_file(uint8_t *file, uint32_t interval)
{
    uint8_t *rows = file + NPA_FILE_HEADER_BYTES;
    uint8_t *points = rows + NPA_ROW_BYTES * PLANTS;
    uint32_t i;

    memset(file, 0, FILE_LEN);
    npa_put32(file, NPA_FILE_FORMAT, NPA_FORMAT_1);
    npa_put32(file, NPA_FILE_INTERVAL, interval);
    npa_put32(file, NPA_FILE_NET_CONE, 30000);
    npa_put32(file, NPA_FILE_DAYS, 365);
    npa_put32(file, NPA_FILE_ROWS, PLANTS);
    npa_put32(file, NPA_FILE_ROWS_AT, NPA_FILE_HEADER_BYTES);
    npa_put32(file, NPA_FILE_POINTS, POINTS);
    npa_put32(file, NPA_FILE_POINTS_AT, NPA_FILE_HEADER_BYTES + NPA_ROW_BYTES * PLANTS);
    for (i = 0; i < PLANTS; i++) {
        write_row(rows + NPA_ROW_BYTES * i, 11 + i);
    }
    for (i = 0; i < POINTS; i++) {
        npa_put32(points + NPA_POINT_BYTES * i, NPA_POINT_PRICE, 1000 + 3000 * i);
        npa_put32(points + NPA_POINT_BYTES * i, NPA_POINT_KW, 20000 * (i + 1));
    }
}

int main(int count, char **arguments)
{
    uint8_t block[BLOCK_LEN], file[FILE_LEN];
    uint32_t i, interval = 36000;

    if (count != 3) {
        return 1;
    }
    npa_put32(block, NPA_BLOCK_FORMAT, NPA_FORMAT_1);
    npa_put32(block, NPA_BLOCK_NET_CONE, 30000);
    npa_put32(block, NPA_BLOCK_DAYS, 365);
    npa_put32(block, NPA_BLOCK_IDS, PLANTS);
    npa_put32(block, NPA_BLOCK_IDS_AT, NPA_BLOCK_HEADER_BYTES);
    for (i = 0; i < PLANTS; i++) {
        npa_put32(block + NPA_BLOCK_HEADER_BYTES, i, 11 + i);
    }
    write_out(arguments[1], "block", block, sizeof block);
    for (i = 1; i <= (uint32_t)atoi(arguments[2]); i++) {
        char name[16];
        snprintf(name, sizeof name, "%04u", (unsigned)i);
        interval += 1 + drawn(3);
        write_file(file, interval);
        write_out(arguments[1], name, file, sizeof file);
    }
    return 0;
}
