/*
 * The largest ledger and the largest interval files of both formats: 512 plants, and 512 rows of 10 points apiece that
 * they share, or of 4 schedules of 10 points apiece.
 */
#ifndef FULL_H
#define FULL_H

#include "npa.h"

#include "check.h"

#define FULL_BLOCK_LEN (NPA_BLOCK_HEADER_BYTES + NPA_ID_BYTES * NPA_IDS_MOST)
#define FULL_FILE_LEN (NPA_FILE_HEADER_BYTES + NPA_ROW_BYTES * NPA_ROWS_MOST + NPA_POINT_BYTES * NPA_POINTS_MOST)

#define FULL_FILE_2_LEN \
    (NPA_FILE_2_HEADER_BYTES + NPA_ROW_2_BYTES * NPA_ROWS_MOST + NPA_POINT_BYTES * NPA_POINTS_MOST + NPA_SCHEDULE_BYTES * NPA_SCHEDULES_MOST)

/* Plants 1 to 512. */
static inline void write_full_block(uint8_t *block)
{
    size_t i;
    npa_put32(block, NPA_BLOCK_FORMAT, NPA_FORMAT_1);
    npa_put32(block, NPA_BLOCK_NET_CONE, 30000);
    npa_put32(block, NPA_BLOCK_DAYS, 365);
    npa_put32(block, NPA_BLOCK_IDS, NPA_IDS_MOST);
    npa_put32(block, NPA_BLOCK_IDS_AT, NPA_BLOCK_HEADER_BYTES);
    for (i = 0; i < NPA_IDS_MOST; i++) {
        npa_put32(block + NPA_BLOCK_HEADER_BYTES, i, (uint32_t)i + 1);
    }
}

/* The header, with rows and points right behind it. */
static inline void write_full_header(uint8_t *file, uint32_t format, uint32_t interval, uint32_t rows_at,
                                     uint32_t points_at)
{
    npa_put32(file, NPA_FILE_FORMAT, format);
    npa_put32(file, NPA_FILE_INTERVAL, interval);
    npa_put32(file, NPA_FILE_NET_CONE, 30000);
    npa_put32(file, NPA_FILE_DAYS, 365);
    npa_put32(file, NPA_FILE_ROWS, NPA_ROWS_MOST);
    npa_put32(file, NPA_FILE_ROWS_AT, rows_at);
    npa_put32(file, NPA_FILE_POINTS, NPA_POINTS_MOST);
    npa_put32(file, NPA_FILE_POINTS_AT, points_at);
}

/* The words of a row that both formats have; kinds and figures differ from row to row and with the salt. */
static inline void write_full_row(uint8_t *row, uint32_t i, uint32_t salt)
{
    uint32_t kind = (i + salt) % 6;
    npa_put32(row, NPA_ROW_ID, i + 1);
    npa_put32(row, NPA_ROW_KIND, kind);
    npa_put32(row, NPA_ROW_COMMITTED, kind >= NPA_KIND_ENERGY_ONLY ? 0 : 50000 + 7 * i);
    npa_put32(row, NPA_ROW_OWNED, 60000);
    npa_put32(row, NPA_ROW_METERED, (31 * i + 977 * salt) % 90000);
    npa_put32(row, NPA_ROW_MAXIMUM, 80000);
    npa_put32(row, NPA_ROW_MINIMUM, 1000);
    npa_put32(row, NPA_ROW_ONLINE, 1);
    npa_put32(row, NPA_ROW_LMP, 455);
}

static inline void write_full_points(uint8_t *points)
{
    uint32_t i;
    for (i = 0; i < NPA_POINTS_MOST; i++) {
        npa_put32(points + NPA_POINT_BYTES * i, NPA_POINT_PRICE, i);
        npa_put32(points + NPA_POINT_BYTES * i, NPA_POINT_KW, 30 * i);
    }
}

/* A row for every plant, in format 1. */
static inline void write_full_file(uint8_t *file, uint32_t interval, uint32_t salt)
{
    const uint32_t rows_at = NPA_FILE_HEADER_BYTES, points_at = rows_at + NPA_ROW_BYTES * NPA_ROWS_MOST;
    uint32_t i;

    memset(file, 0, FULL_FILE_LEN);
    write_full_header(file, NPA_FORMAT_1, interval, rows_at, points_at);
    for (i = 0; i < NPA_ROWS_MOST; i++) {
        uint8_t *row = file + rows_at + NPA_ROW_BYTES * i;
        write_full_row(row, i, salt);
        npa_put32(row, NPA_ROW_FIRST_POINT, i);
        npa_put32(row, NPA_ROW_POINTS, NPA_ROW_POINTS_MOST);
    }
    write_full_points(file + points_at);
}

/* The same in format 2, with schedules of all kinds. */
static inline void write_full_file_2(uint8_t *file, uint32_t interval, uint32_t salt)
{
    const uint32_t rows_at = NPA_FILE_2_HEADER_BYTES, points_at = rows_at + NPA_ROW_2_BYTES * NPA_ROWS_MOST;
    const uint32_t schedules_at = points_at + NPA_POINT_BYTES * NPA_POINTS_MOST;
    uint32_t i;

    memset(file, 0, FULL_FILE_2_LEN);
    write_full_header(file, NPA_FORMAT_2, interval, rows_at, points_at);
    npa_put32(file, NPA_FILE_SCHEDULES, NPA_SCHEDULES_MOST);
    npa_put32(file, NPA_FILE_SCHEDULES_AT, schedules_at);
    for (i = 0; i < NPA_ROWS_MOST; i++) {
        uint8_t *row = file + rows_at + NPA_ROW_2_BYTES * i;
        write_full_row(row, i, salt);
        npa_put32(row, NPA_ROW_FIRST_SCHEDULE, 2 * i % (NPA_SCHEDULES_MOST - NPA_ROW_SCHEDULES_MOST + 1));
        npa_put32(row, NPA_ROW_SCHEDULES, NPA_ROW_SCHEDULES_MOST);
        npa_put32(row, NPA_ROW_DISPATCHED, (i + salt) % NPA_ROW_SCHEDULES_MOST);
    }
    write_full_points(file + points_at);
    for (i = 0; i < NPA_SCHEDULES_MOST; i++) {
        uint8_t *schedule = file + schedules_at + NPA_SCHEDULE_BYTES * i;
        npa_put32(schedule, NPA_SCHEDULE_KIND, NPA_SCHEDULE_MARKET + i % 3);
        npa_put32(schedule, NPA_SCHEDULE_FIRST_POINT, i);
        npa_put32(schedule, NPA_SCHEDULE_POINTS, NPA_ROW_POINTS_MOST);
    }
}

#endif
