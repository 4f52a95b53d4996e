/* Every call of tracksaffron.h from C, with answers that the documents give, with lengths that are wrong and with null for no bytes
 * (tests/bindings). Prints what does not hold; the exit status says whether all did. */
#include "tracksaffron.h"

#include <stdio.h>
#include <stdlib.h>
#include <string.h>

static int failures;

#define CHECK(fact)                                                                                                                          \
    do {                                                                                                                                     \
        if (!(fact)) {                                                                                                                       \
            printf("%s:%d: %s\n", __FILE__, __LINE__, #fact);                                                                                \
            failures++;                                                                                                                      \
        }                                                                                                                                    \
    } while (0)

#define ANSWER(kind, number) (((uint64_t)(kind) << 32) + (number))

/* Bytes that no call may touch where it refuses. */
static int untouched(const void *lent, size_t bytes) {
    const uint8_t *b = lent;
    for (size_t i = 0; i < bytes; i++)
        if (b[i] != 0xA5)
            return 0;
    return 1;
}

#define FRESH(lent) memset((lent), 0xA5, sizeof(lent))

static void sums(void) {
    CHECK(tracksaffron_crc16((const uint8_t *)"\x01\x05", 2) == 0x6394);
    CHECK(tracksaffron_close256((const uint8_t *)"\x7F\x10\x02\x06\x12", 5) == 0x57);
    CHECK(tracksaffron_close65536((const uint8_t *)"25014642E00201", 14) == 0xFD30);
}

static void refusals(void) {
    CHECK(tracksaffron_refusal_text(0) == NULL && tracksaffron_refusal_text(TRACKSAFFRON_REFUSED_PRESENT_PAIR + 1) == NULL);
    CHECK(strcmp(tracksaffron_refusal_text(TRACKSAFFRON_REFUSED_CHECKSUM), "the checksum is wrong") == 0);
}

static void pathfinder(void) {
    static const uint8_t set[] = {0xFE, 0x06, 0x0E, 0x03, 0x38, 0x00, 0x00, 0x00, 0x66, 0x7E, 0xFD};
    uint8_t out[16], name[4];
    int32_t row[3];
    int64_t value[1];
    size_t found[2];

    FRESH(out);
    CHECK(tracksaffron_pf_write(3, 56, out, sizeof out) == ANSWER(TRACKSAFFRON_FRAME, 11));
    CHECK(memcmp(out, set, sizeof set) == 0 && untouched(out + 11, 5));
    FRESH(out);
    CHECK(tracksaffron_pf_write(3, 56, out, 10) == TRACKSAFFRON_REFUSED_ROOM);
    CHECK(tracksaffron_pf_write(3, 128, out, 0) == TRACKSAFFRON_REFUSED_RANGE);
    CHECK(tracksaffron_pf_write(47, 0, out, sizeof out) == TRACKSAFFRON_REFUSED_REGISTER);
    CHECK(tracksaffron_pf_write(52, 0, out, sizeof out) == TRACKSAFFRON_REFUSED_REGISTER);
    CHECK(tracksaffron_pf_write(49, -1, out, sizeof out) == TRACKSAFFRON_REFUSED_RANGE);
    CHECK(untouched(out, sizeof out));
    CHECK(tracksaffron_pf_write(42, -1, out, sizeof out) == ANSWER(TRACKSAFFRON_FRAME, 11) && out[3] == 42 && out[7] == 0xFF);
    CHECK(tracksaffron_pf_parse(out, 11, row, 2) == ANSWER(TRACKSAFFRON_PF_SET, 2) && row[0] == 42 && row[1] == -1);

    CHECK(tracksaffron_pf_ask(5, out, sizeof out) == ANSWER(TRACKSAFFRON_FRAME, 6));
    CHECK(memcmp(out, "\xFE\x01\x05\x63\x94\xFD", 6) == 0);
    CHECK(tracksaffron_pf_ask(6, out, sizeof out) == TRACKSAFFRON_REFUSED_REQUEST);
    CHECK(tracksaffron_pf_ask(5, out, 5) == TRACKSAFFRON_REFUSED_ROOM);

    /* The frame of 05 without data is also the reply with an empty name. */
    FRESH(row);
    FRESH(name);
    CHECK(tracksaffron_pf_ask(5, out, sizeof out) == ANSWER(TRACKSAFFRON_FRAME, 6));
    CHECK(tracksaffron_pf_read(5, out, 6, row, 3, name, 4) == ANSWER(TRACKSAFFRON_PF_NAME, 0));
    CHECK(tracksaffron_pf_read(1, out, 6, row, 3, name, 4) == TRACKSAFFRON_REFUSED_REQUEST);
    CHECK(tracksaffron_pf_read(5, out, 0, row, 0, name, 0) == TRACKSAFFRON_REFUSED_SHORT);
    CHECK(untouched(row, sizeof row) && untouched(name, sizeof name));

    /* Reply 01: the words 1, 2 and -20. */
    uint8_t reply[18] = {0xFE, 13, 0x01, 1, 0, 0, 0, 2, 0, 0, 0, 0xEC, 0xFF, 0xFF, 0xFF};
    uint16_t sum = tracksaffron_crc16(reply + 1, 14);
    reply[15] = sum >> 8;
    reply[16] = sum & 0xFF;
    reply[17] = 0xFD;
    CHECK(tracksaffron_pf_read(1, reply, sizeof reply, row, 2, name, 4) == TRACKSAFFRON_REFUSED_ROOM);
    CHECK(untouched(row, sizeof row));
    CHECK(tracksaffron_pf_read(1, reply, sizeof reply, row, 3, name, 4) == ANSWER(TRACKSAFFRON_PF_WORDS, 3));
    CHECK(row[0] == 1 && row[1] == 2 && row[2] == -20);
    reply[0] = 0;
    CHECK(tracksaffron_pf_read(1, reply, sizeof reply, row, 3, name, 4) == TRACKSAFFRON_REFUSED_FIRST_MARK);
    reply[0] = 0xFE;
    reply[17] = 0;
    CHECK(tracksaffron_pf_read(1, reply, sizeof reply, row, 3, name, 4) == TRACKSAFFRON_REFUSED_LAST_MARK);
    reply[17] = 0xFD;
    reply[4]++;
    CHECK(tracksaffron_pf_read(1, reply, sizeof reply, row, 3, name, 4) == TRACKSAFFRON_REFUSED_CHECKSUM);
    CHECK(tracksaffron_pf_read(0x0E, (const uint8_t *)"\xFE\x01\x0E\xD2\xFF\xFD", 6, row, 3, name, 4) == ANSWER(TRACKSAFFRON_PF_WRITTEN, 0));
    CHECK(tracksaffron_pf_read(0x0E, (const uint8_t *)"\xFE\x01\x24\x57\xD7\xFD", 6, row, 3, name, 4) == ANSWER(TRACKSAFFRON_PF_FAILURE, 0x24));

    FRESH(value);
    CHECK(tracksaffron_pf_row(3, 10, 255, value, 1) == ANSWER(TRACKSAFFRON_PF_ROW_MISSING, 0));
    CHECK(tracksaffron_pf_row(1, 0, -20, value, 0) == TRACKSAFFRON_REFUSED_ROOM);
    CHECK(tracksaffron_pf_row(5, 0, -20, value, 1) == TRACKSAFFRON_REFUSED_REQUEST);
    CHECK(tracksaffron_pf_row(1, 3, -20, value, 1) == TRACKSAFFRON_REFUSED_SHAPE);
    CHECK(untouched(value, sizeof value));
    CHECK(tracksaffron_pf_row(1, 0, -20, value, 1) == ANSWER(TRACKSAFFRON_PF_ROW_NUMBER, 1) && value[0] == -20);
    CHECK(tracksaffron_pf_row(3, 0, 5000, value, 1) == ANSWER(TRACKSAFFRON_PF_ROW_TEN_MILLIVOLTS, 1) && value[0] == 5000);
    CHECK(tracksaffron_pf_row(2, 43, 7, value, 1) == ANSWER(TRACKSAFFRON_PF_ROW_TRUTH, 1) && value[0] == 1);
    for (uint8_t row_03 = 32; row_03 <= 45; row_03++)
        CHECK(tracksaffron_pf_row(3, row_03, 65535, value, 1) == ANSWER(TRACKSAFFRON_PF_ROW_NUMBER, 1) && value[0] == 65535);
    FRESH(value);
    CHECK(tracksaffron_pf_row(3, 31, INT32_MAX, value, 1) == ANSWER(TRACKSAFFRON_PF_ROW_MISSING, 0));
    CHECK(tracksaffron_pf_row(3, 46, 255, value, 1) == ANSWER(TRACKSAFFRON_PF_ROW_MISSING, 0));
    CHECK(tracksaffron_pf_row(3, 47, 65535, value, 1) == ANSWER(TRACKSAFFRON_PF_ROW_MISSING, 0));
    CHECK(tracksaffron_pf_row(3, 48, 65535, value, 1) == ANSWER(TRACKSAFFRON_PF_ROW_MISSING, 0));
    CHECK(untouched(value, sizeof value));

    uint8_t log[32] = "log \xFE text ";
    memcpy(log + 11, set, sizeof set);
    FRESH(found);
    CHECK(tracksaffron_pf_find(log, sizeof log, found, 1) == TRACKSAFFRON_REFUSED_ROOM);
    CHECK(tracksaffron_pf_find(log, 21, found, 2) == ANSWER(TRACKSAFFRON_PF_NOTHING, 0));
    CHECK(untouched(found, sizeof found));
    CHECK(tracksaffron_pf_find(log, sizeof log, found, 2) == ANSWER(TRACKSAFFRON_PF_FOUND, 2) && found[0] == 11 && found[1] == 11);

    FRESH(row);
    CHECK(tracksaffron_pf_parse(set, sizeof set, row, 1) == TRACKSAFFRON_REFUSED_ROOM);
    CHECK(tracksaffron_pf_parse(set, sizeof set - 1, row, 2) == TRACKSAFFRON_REFUSED_LENGTH);
    CHECK(untouched(row, sizeof row));
    CHECK(tracksaffron_pf_parse(set, sizeof set, row, 3) == ANSWER(TRACKSAFFRON_PF_SET, 2) && row[0] == 3 && row[1] == 56);
    CHECK(tracksaffron_pf_parse((const uint8_t *)"\xFE\x01\x05\x63\x94\xFD", 6, row, 1) == ANSWER(TRACKSAFFRON_PF_ASK, 1) && row[0] == 5);

    CHECK(tracksaffron_pf_millivolts(-5000) == -50000);
}

/* What the reply to a function with this message tells. */
static uint64_t tz_reply(uint8_t function, const char *message, size_t len, int32_t *row) {
    uint8_t frame[16] = {0x7F, 0x10, 0x02, len + 6, function};
    memcpy(frame + 5, message, len);
    frame[5 + len] = tracksaffron_close256(frame, 5 + len);
    return tracksaffron_tz_read(function, frame, 6 + len, row, TRACKSAFFRON_TZ3_NUMBERS);
}

static void tongzhu(void) {
    static const uint8_t two[] = {0x7F, 0x10, 0x02, 0x1B, 0x11, 0x01, 0x00, 0x00, 0x00, 0x14, 0x00, 0x45, 0x10, 0x33,
                                  0x10, 0x1D, 0x15, 0x1E, 0x1E, 0x00, 0x00, 0xC2, 0x01, 0xF4, 0x01, 0xC0, 0xB0};
    static const uint8_t three[] = {0x7F, 0x10, 0x02, 0x3B, 0x12, 0x01, 0x00, 0x00, 0x00, 0x10, 0x00, 0x10, 0xA6, 0x0D, 0xEB,
                                    0x0D, 0xC3, 0x0D, 0xB9, 0x0D, 0xC2, 0x0D, 0xF6, 0x0D, 0xEA, 0x0D, 0xE5, 0x0D, 0x05, 0x0E,
                                    0xE7, 0x0D, 0xE5, 0x0D, 0xEC, 0x0D, 0x05, 0x0E, 0xF4, 0x0D, 0xE2, 0x0D, 0xE4, 0x0D, 0x00,
                                    0x00, 0x02, 0x11, 0x12, 0x01, 0x11, 0x03, 0x00, 0x78, 0x00, 0xC8, 0x00, 0xC0, 0xE5};
    int32_t row[TRACKSAFFRON_TZ3_NUMBERS];
    uint8_t out[16];

    FRESH(row);
    CHECK(tracksaffron_tz_read(0x11, two, sizeof two, row, 13) == TRACKSAFFRON_REFUSED_ROOM);
    CHECK(tracksaffron_tz_read(0x12, two, sizeof two, row, 80) == TRACKSAFFRON_REFUSED_REQUEST);
    CHECK(tracksaffron_tz_read(0x11, two, sizeof two - 1, row, 80) == TRACKSAFFRON_REFUSED_LENGTH);
    CHECK(tracksaffron_tz_read(0x11, two, 0, row, 0) == TRACKSAFFRON_REFUSED_SHORT);
    CHECK(tracksaffron_tz_read(0x12, three, sizeof three, row, 79) == TRACKSAFFRON_REFUSED_ROOM);
    CHECK(untouched(row, sizeof row));
    CHECK(tracksaffron_tz_read(0x11, two, sizeof two, row, 80) == ANSWER(TRACKSAFFRON_TZ_MONITOR2, TRACKSAFFRON_TZ2_NUMBERS));
    CHECK(row[TRACKSAFFRON_TZ2_STATUS] == 1 && row[TRACKSAFFRON_TZ2_CURRENT_100MA] == 20 && row[TRACKSAFFRON_TZ2_HIGHEST_MV] == 4165);
    CHECK(row[TRACKSAFFRON_TZ2_TOTAL_10MV] == 5405 && row[TRACKSAFFRON_TZ2_REMAINING_100MAH] == 450 && row[TRACKSAFFRON_TZ2_SWITCH] == 192);
    CHECK(untouched(row + TRACKSAFFRON_TZ2_NUMBERS, sizeof row - 4 * TRACKSAFFRON_TZ2_NUMBERS));

    CHECK(tracksaffron_tz_read(0x12, three, sizeof three, row, 80) == ANSWER(TRACKSAFFRON_TZ_MONITOR3, TRACKSAFFRON_TZ3_NUMBERS));
    CHECK(row[TRACKSAFFRON_TZ3_CELL_COUNT] == 16 && row[TRACKSAFFRON_TZ3_SENSOR_COUNT] == 2 && row[TRACKSAFFRON_TZ3_MOSFET_COUNT] == 1);
    CHECK(row[TRACKSAFFRON_TZ3_CELLS_MV] == 0x0DA6 && row[TRACKSAFFRON_TZ3_CELLS_MV + 15] == 0x0DE4 && row[TRACKSAFFRON_TZ3_CELLS_MV + 16] == 0);
    CHECK(row[TRACKSAFFRON_TZ3_SENSORS_C + 1] == 18 && row[TRACKSAFFRON_TZ3_MOSFETS_C] == 17 && row[TRACKSAFFRON_TZ3_CAPACITY_100MAH] == 200);

    CHECK(tracksaffron_tz_ask(0x12, out, sizeof out) == ANSWER(TRACKSAFFRON_FRAME, 6));
    CHECK(memcmp(out, "\x7F\x10\x02\x06\x12\x57", 6) == 0);
    CHECK(tracksaffron_tz_ask(0x12, out, 5) == TRACKSAFFRON_REFUSED_ROOM);
    CHECK(tracksaffron_tz_ask(0x30, out, 0) == TRACKSAFFRON_REFUSED_SHAPE);
    CHECK(tracksaffron_tz_set_time(17, 5, 12, 10, 30, 50, out, sizeof out) == ANSWER(TRACKSAFFRON_FRAME, 12));
    CHECK(memcmp(out, "\x7F\x10\x02\x0C\x30\x17\x05\x12\x10\x30\x50\x75", 12) == 0);
    CHECK(tracksaffron_tz_set_time(23, 2, 29, 0, 0, 0, out, sizeof out) == TRACKSAFFRON_REFUSED_RANGE);
    CHECK(tracksaffron_tz_set_time(24, 2, 29, 0, 0, 0, out, 11) == TRACKSAFFRON_REFUSED_ROOM);

    FRESH(row);
    CHECK(tracksaffron_tz_parse(out, 12, row, 5) == TRACKSAFFRON_REFUSED_ROOM);
    CHECK(untouched(row, sizeof row));
    CHECK(tracksaffron_tz_parse(out, 12, row, 80) == ANSWER(TRACKSAFFRON_TZ_SET_TIME, 6));
    CHECK(row[0] == 17 && row[1] == 5 && row[2] == 12 && row[3] == 10 && row[4] == 30 && row[5] == 50);
    CHECK(tracksaffron_tz_parse((const uint8_t *)"\x7F\x10\x02\x06\x12\x57", 6, row, 1) == ANSWER(TRACKSAFFRON_TZ_ASK, 1) && row[0] == 0x12);

    CHECK(tz_reply(0x14, "\x01\x02\x03\x04", 4, row) == ANSWER(TRACKSAFFRON_TZ_STATUS, 4) && row[0] == 1 && row[3] == 4);
    CHECK(tz_reply(0x15, "\xEC\xFF", 2, row) == ANSWER(TRACKSAFFRON_TZ_CURRENT, 1) && row[0] == -20);
    CHECK(tz_reply(0x30, "\x01", 1, row) == ANSWER(TRACKSAFFRON_TZ_DONE, 0));
    CHECK(tz_reply(0x30, "\x02", 1, row) == ANSWER(TRACKSAFFRON_TZ_NOT_DONE, 0));
    CHECK(tracksaffron_tz_read(0x12, (const uint8_t *)"\x7F\x10\x02\x06\x00\x69", 6, row, 0) == ANSWER(TRACKSAFFRON_TZ_DEVICE_ERROR, 0));
}

/* A PACE reply of address 1 with this INFO. */
static size_t pace_reply(const char *info, uint8_t *out) {
    unsigned count = strlen(info), digits = (count >> 8) + (count >> 4 & 15) + (count & 15);
    int n = sprintf((char *)out, "~25014600%X%03X%s", (16 - digits % 16) % 16, count, info);
    return n + sprintf((char *)out + n, "%04X\r", tracksaffron_close65536(out + 1, n - 1));
}

static void pace(void) {
    uint8_t out[64], text[40], reply[160];
    int32_t row[TRACKSAFFRON_PACE_W_NUMBERS];
    size_t n;

    CHECK(tracksaffron_pace_ask(1, 0x42, out, sizeof out) == ANSWER(TRACKSAFFRON_FRAME, 20));
    CHECK(memcmp(out, "~25014642E00201FD30\r", 20) == 0);
    CHECK(tracksaffron_pace_ask(1, 0x42, out, 19) == TRACKSAFFRON_REFUSED_ROOM);
    CHECK(tracksaffron_pace_ask(1, 0xD0, out, 0) == TRACKSAFFRON_REFUSED_SHAPE);
    CHECK(tracksaffron_pace_cell_overvoltage(1, 3600, 3700, 3500, 20, out, sizeof out) == ANSWER(TRACKSAFFRON_FRAME, 34));
    CHECK(tracksaffron_pace_cell_overvoltage(1, 3601, 3700, 3500, 20, out, sizeof out) == TRACKSAFFRON_REFUSED_RANGE);
    CHECK(tracksaffron_pace_slow_discharge(1, 100, 105, 10, out, sizeof out) == ANSWER(TRACKSAFFRON_FRAME, 30));
    CHECK(memcmp(out + 13, "01006400690A", 12) == 0);
    CHECK(tracksaffron_pace_slow_discharge(1, 0, 105, 10, out, 0) == TRACKSAFFRON_REFUSED_RANGE);

    FRESH(row);
    CHECK(tracksaffron_pace_parse(out, 30, row, 3) == TRACKSAFFRON_REFUSED_ROOM);
    CHECK(untouched(row, sizeof row));
    CHECK(tracksaffron_pace_parse(out, 30, row, 38) == ANSWER(TRACKSAFFRON_PACE_SET_SLOW_DISCHARGE, 4));
    CHECK(row[0] == 1 && row[1] == 100 && row[2] == 105 && row[3] == 10);
    out[14] = 'a';
    CHECK(tracksaffron_pace_parse(out, 30, row, 38) == TRACKSAFFRON_REFUSED_CHARACTER);
    CHECK(tracksaffron_pace_cell_overvoltage(2, 3600, 3700, 3500, 20, out, sizeof out) == ANSWER(TRACKSAFFRON_FRAME, 34));
    CHECK(tracksaffron_pace_parse(out, 34, row, 5) == ANSWER(TRACKSAFFRON_PACE_SET_CELL_OVERVOLTAGE, 5));
    CHECK(row[0] == 2 && row[1] == 3600 && row[2] == 3700 && row[3] == 3500 && row[4] == 20);
    CHECK(tracksaffron_pace_ask(1, 0x42, out, sizeof out) == ANSWER(TRACKSAFFRON_FRAME, 20));
    CHECK(tracksaffron_pace_parse(out, 20, row, 2) == ANSWER(TRACKSAFFRON_PACE_ASK, 2) && row[0] == 1 && row[1] == 0x42);

    FRESH(row);
    FRESH(text);
    n = pace_reply("01FF9CFF970A", reply);
    CHECK(tracksaffron_pace_read(1, 0xDB, reply, n, row, 2, text, 0) == TRACKSAFFRON_REFUSED_ROOM);
    CHECK(tracksaffron_pace_read(2, 0xDB, reply, n, row, 38, text, 40) == TRACKSAFFRON_REFUSED_ADDRESS);
    CHECK(tracksaffron_pace_read(1, 0xDB, reply, n - 1, row, 38, text, 40) == TRACKSAFFRON_REFUSED_LAST_MARK);
    CHECK(tracksaffron_pace_read(1, 0xDB, reply, 0, row, 0, text, 0) == TRACKSAFFRON_REFUSED_SHORT);
    CHECK(untouched(row, sizeof row) && untouched(text, sizeof text));
    CHECK(tracksaffron_pace_read(1, 0xDB, reply, n, row, 38, text, 40) == ANSWER(TRACKSAFFRON_PACE_SLOW_DISCHARGE, 3));
    CHECK(row[0] == 100 && row[1] == 105 && row[2] == 10);

    n = pace_reply("0001020D480D49010B9BFF9C1A9003E803138800021388", reply);
    CHECK(tracksaffron_pace_read(1, 0x42, reply, n, row, 32, text, 0) == ANSWER(TRACKSAFFRON_PACE_ANALOG, TRACKSAFFRON_PACE_A_NUMBERS));
    CHECK(row[TRACKSAFFRON_PACE_A_CELL_COUNT] == 2 && row[TRACKSAFFRON_PACE_A_TEMPERATURE_COUNT] == 1);
    CHECK(row[TRACKSAFFRON_PACE_A_CURRENT_10MA] == -100 && row[TRACKSAFFRON_PACE_A_TOTAL_MV] == 6800);
    CHECK(row[TRACKSAFFRON_PACE_A_CELLS_MV + 1] == 3401 && row[TRACKSAFFRON_PACE_A_CELLS_MV + 2] == 0);
    CHECK(row[TRACKSAFFRON_PACE_A_TEMPERATURES_DC] == 241 && row[TRACKSAFFRON_PACE_A_DESIGN_10MAH] == 5000);

    n = pace_reply("0001010001020B0102030405060708090A0B0C", reply);
    CHECK(tracksaffron_pace_read(1, 0x44, reply, n, row, 38, text, 0) == TRACKSAFFRON_REFUSED_SHAPE);
    n = pace_reply("0001010701020102030405060708090A0B0C", reply);
    CHECK(tracksaffron_pace_read(1, 0x44, reply, n, row, 38, text, 0) == ANSWER(TRACKSAFFRON_PACE_WARNINGS, TRACKSAFFRON_PACE_W_NUMBERS));
    CHECK(row[TRACKSAFFRON_PACE_W_CELLS] == 7 && row[TRACKSAFFRON_PACE_W_TEMPERATURES] == 2 && row[TRACKSAFFRON_PACE_W_WARNING2] == 12);

    n = pace_reply("303132333435363738394142434445464748494A", reply);
    CHECK(tracksaffron_pace_read(1, 0xC1, reply, n, row, 0, text, 19) == TRACKSAFFRON_REFUSED_ROOM);
    CHECK(untouched(text, sizeof text));
    CHECK(tracksaffron_pace_read(1, 0xC1, reply, n, row, 0, text, 40) == ANSWER(TRACKSAFFRON_PACE_HARDWARE, 20));
    CHECK(memcmp(text, "0123456789ABCDEFGHIJ", 20) == 0 && untouched(text + 20, 20));
    CHECK(tracksaffron_pace_read(1, 0xC2, reply, n, row, 0, text, 40) == ANSWER(TRACKSAFFRON_PACE_SERIAL, 20));
    n = pace_reply("010E100E740DAC14", reply);
    CHECK(tracksaffron_pace_read(1, 0xD1, reply, n, row, 4, text, 0) == ANSWER(TRACKSAFFRON_PACE_CELL_OVERVOLTAGE, 4));
    CHECK(row[0] == 3600 && row[1] == 3700 && row[2] == 3500 && row[3] == 20);
    n = pace_reply("", reply);
    CHECK(tracksaffron_pace_read(1, 0xD0, reply, n, row, 0, text, 0) == ANSWER(TRACKSAFFRON_PACE_ACCEPTED, 0));
    reply[8] = '9';
    sprintf((char *)reply + 13, "%04X\r", tracksaffron_close65536(reply + 1, 12));
    CHECK(tracksaffron_pace_read(1, 0xD0, reply, n, row, 0, text, 0) == ANSWER(TRACKSAFFRON_PACE_FAILURE, 9));
}

static void old58(void) {
    uint8_t record[59] = {0};
    int32_t row[TRACKSAFFRON_OLD_NUMBERS];

    /* 12.8 V, 32 A of charge, -32 A, no third sensor; the coldest is 276 counts, 0 degrees. */
    memcpy(record, "\x00\x0A\x00+\x01\x00-\x01\x00X\x00\x00", 12);
    record[18] = 0x01;
    record[19] = 0x14;
    record[47] = 7;
    record[48] = 45;
    for (int i = 0; i < 57; i++)
        record[57] += record[i];
    FRESH(row);
    CHECK(tracksaffron_old_read(record, 58, row, 31) == TRACKSAFFRON_REFUSED_ROOM);
    CHECK(tracksaffron_old_read(record, 57, row, 32) == TRACKSAFFRON_REFUSED_SHORT);
    CHECK(tracksaffron_old_read(record, 59, row, 32) == TRACKSAFFRON_REFUSED_LENGTH);
    CHECK(tracksaffron_old_read(record, 0, row, 0) == TRACKSAFFRON_REFUSED_SHORT);
    CHECK(untouched(row, sizeof row));
    CHECK(tracksaffron_old_read(record, 58, row, 32) == ANSWER(TRACKSAFFRON_OLD_RECORD, TRACKSAFFRON_OLD_NUMBERS));
    CHECK(row[TRACKSAFFRON_OLD_TOTAL_MV] == 12800 && row[TRACKSAFFRON_OLD_CURRENT_MA] == 32000 && row[TRACKSAFFRON_OLD_CURRENT2_MA] == -32000);
    CHECK(row[TRACKSAFFRON_OLD_CURRENT_KNOWN] == 1 && row[TRACKSAFFRON_OLD_CURRENT3_KNOWN] == 0 && row[TRACKSAFFRON_OLD_CURRENT3_MA] == 0);
    CHECK(row[TRACKSAFFRON_OLD_COLDEST_C] == 0 && row[TRACKSAFFRON_OLD_HOUR] == 7 && row[TRACKSAFFRON_OLD_MINUTE] == 45);
}

static void restore(void) {
    uint8_t job[TRACKSAFFRON_JOB_BYTES], kept[TRACKSAFFRON_JOB_BYTES], out[16];
    uint8_t reply[6] = {0xFE, 0x01, 0x0E, 0, 0, 0xFD};
    /* The example pack of 000, but for 21, 26, 31 and 32, which are in range here. */
    int32_t present[TRACKSAFFRON_PRESENT_WORDS] = {
        3100, 20, 4, 55, 50, 2, 0, 5, 2, 60, 55, 2, -20, -15, 2, 72, 2, 301, 49, 2, 301, 62, 88, -170, 2,
        15, 100, 88, 80, 65, 2, 14, 1, 30, 1000, 1, -1500, 1, 4500, 0, 1000, 0, 229995, 1, 1, 1, 1, 3000, 50, 10000,
    };
    int32_t wanted[TRACKSAFFRON_WANTED_VALUES];

    /* P11: 55, 50 to 45, 40 writes 4, then 3. */
    memcpy(wanted, present, sizeof wanted);
    wanted[3] = 45;
    wanted[4] = 40;
    uint16_t sum = tracksaffron_crc16(reply + 1, 2);
    reply[3] = sum >> 8;
    reply[4] = sum & 0xFF;

    FRESH(job);
    FRESH(out);
    CHECK(tracksaffron_restore_open(present, 50, wanted, 50, job, sizeof job - 1) == TRACKSAFFRON_REFUSED_SHAPE);
    CHECK(tracksaffron_restore_open(present, 49, wanted, 50, job, sizeof job) == TRACKSAFFRON_REFUSED_SHAPE);
    CHECK(tracksaffron_restore_open(present, 50, wanted, 49, job, sizeof job) == TRACKSAFFRON_REFUSED_SHAPE);
    CHECK(tracksaffron_restore_next(job, sizeof job, out, sizeof out) == TRACKSAFFRON_REFUSED_SHAPE);
    CHECK(tracksaffron_restore_next(job, 0, out, 0) == TRACKSAFFRON_REFUSED_SHAPE);
    CHECK(tracksaffron_restore_reply(job, sizeof job, reply, 6) == TRACKSAFFRON_REFUSED_SHAPE);
    CHECK(tracksaffron_restore_left(job, sizeof job) == TRACKSAFFRON_REFUSED_SHAPE);
    CHECK(untouched(job, sizeof job) && untouched(out, sizeof out));

    CHECK(tracksaffron_restore_open(present, 50, wanted, 50, job, sizeof job) == ANSWER(TRACKSAFFRON_RESTORE_OPENED, 0));
    CHECK(tracksaffron_restore_left(job, sizeof job) == ANSWER(TRACKSAFFRON_RESTORE_LEFT, 2));
    memcpy(kept, job, sizeof job);
    CHECK(tracksaffron_restore_reply(job, sizeof job, reply, 6) == TRACKSAFFRON_REFUSED_TURN);
    CHECK(tracksaffron_restore_next(job, sizeof job, out, 10) == TRACKSAFFRON_REFUSED_ROOM);
    CHECK(memcmp(job, kept, sizeof job) == 0 && untouched(out, sizeof out));
    CHECK(tracksaffron_restore_next(job, sizeof job, out, sizeof out) == ANSWER(TRACKSAFFRON_RESTORE_FRAME, 11) && out[3] == 4 && out[4] == 40);
    CHECK(tracksaffron_restore_next(job, sizeof job, out, sizeof out) == TRACKSAFFRON_REFUSED_TURN);
    /* A job that waits for a register that is not its first write: one that differs too, one that does not, fixed ones, none of the 50. */
    for (const uint8_t *other = (const uint8_t *)"\x03\x00\x2F\x31\x32\xFF", *end = other + 6; other < end; other++) {
        job[401] = *other;
        memcpy(kept, job, sizeof job);
        FRESH(out);
        CHECK(tracksaffron_restore_next(job, sizeof job, out, sizeof out) == TRACKSAFFRON_REFUSED_SHAPE);
        CHECK(tracksaffron_restore_reply(job, sizeof job, reply, 6) == TRACKSAFFRON_REFUSED_SHAPE);
        CHECK(tracksaffron_restore_left(job, sizeof job) == TRACKSAFFRON_REFUSED_SHAPE);
        CHECK(memcmp(job, kept, sizeof job) == 0 && untouched(out, sizeof out));
    }
    job[401] = 4;
    CHECK(tracksaffron_restore_reply(job, sizeof job, reply, 5) == TRACKSAFFRON_REFUSED_SHORT);
    CHECK(tracksaffron_restore_reply(job, sizeof job, reply, 6) == ANSWER(TRACKSAFFRON_RESTORE_WRITTEN, 0));
    CHECK(tracksaffron_restore_next(job, sizeof job, out, sizeof out) == ANSWER(TRACKSAFFRON_RESTORE_FRAME, 11) && out[3] == 3 && out[4] == 45);
    CHECK(tracksaffron_restore_reply(job, sizeof job, reply, 6) == ANSWER(TRACKSAFFRON_RESTORE_WRITTEN, 0));
    CHECK(tracksaffron_restore_next(job, sizeof job, out, sizeof out) == ANSWER(TRACKSAFFRON_RESTORE_DONE, 0));
    CHECK(tracksaffron_restore_left(job, sizeof job) == ANSWER(TRACKSAFFRON_RESTORE_LEFT, 0));
    wanted[3] = 40;
    memcpy(kept, job, sizeof job);
    CHECK(tracksaffron_restore_open(present, 50, wanted, 50, job, sizeof job) == TRACKSAFFRON_REFUSED_WANTED_PAIR);
    wanted[3] = 45;
    present[4] = 55;
    CHECK(tracksaffron_restore_open(present, 50, wanted, 50, job, sizeof job) == TRACKSAFFRON_REFUSED_PRESENT_PAIR);
    present[4] = 50;

    /* A fixed setting that is wanted otherwise, which comes before a range; a bool of 2. */
    wanted[2] = 17;
    CHECK(tracksaffron_restore_open(present, 50, wanted, 50, job, sizeof job) == TRACKSAFFRON_REFUSED_RANGE);
    wanted[48] = 51;
    CHECK(tracksaffron_restore_open(present, 50, wanted, 50, job, sizeof job) == TRACKSAFFRON_REFUSED_REGISTER);
    present[43] = 2;
    CHECK(tracksaffron_restore_open(present, 50, wanted, 50, job, sizeof job) == TRACKSAFFRON_REFUSED_SHAPE);
    CHECK(memcmp(job, kept, sizeof job) == 0);
    wanted[2] = present[2];
    wanted[48] = present[48];
    present[43] = 1;

    /* The pair 28 and 29, lowered; a design capacity beyond 31 bits. */
    wanted[28] = 60;
    wanted[29] = 50;
    wanted[42] = -1;
    CHECK(tracksaffron_restore_open(present, 50, wanted, 50, job, sizeof job) == ANSWER(TRACKSAFFRON_RESTORE_OPENED, 0));
    CHECK(tracksaffron_restore_left(job, sizeof job) == ANSWER(TRACKSAFFRON_RESTORE_LEFT, 5));
    for (const uint8_t *written = (const uint8_t *)"\x04\x03\x1D\x1C\x2A", *end = written + 5; written < end; written++) {
        CHECK(tracksaffron_restore_next(job, sizeof job, out, sizeof out) == ANSWER(TRACKSAFFRON_RESTORE_FRAME, 11) && out[3] == *written);
        CHECK(tracksaffron_restore_reply(job, sizeof job, reply, 6) == ANSWER(TRACKSAFFRON_RESTORE_WRITTEN, 0));
    }
    CHECK(memcmp(out + 4, "\xFF\xFF\xFF\xFF", 4) == 0);
    CHECK(tracksaffron_restore_next(job, sizeof job, out, sizeof out) == ANSWER(TRACKSAFFRON_RESTORE_DONE, 0));

    /* A device failure stops the job. */
    CHECK(tracksaffron_restore_open(present, 50, wanted, 50, job, sizeof job) == ANSWER(TRACKSAFFRON_RESTORE_OPENED, 0));
    CHECK(tracksaffron_restore_next(job, sizeof job, out, sizeof out) == ANSWER(TRACKSAFFRON_RESTORE_FRAME, 11));
    CHECK(tracksaffron_restore_reply(job, sizeof job, (const uint8_t *)"\xFE\x01\x24\x57\xD7\xFD", 6) == ANSWER(TRACKSAFFRON_RESTORE_FAILURE, 0x24));
    CHECK(tracksaffron_restore_next(job, sizeof job, out, sizeof out) == TRACKSAFFRON_REFUSED_TURN);
}

/* Null with length 0, for all that a call is lent. */
static void nothing(void) {
    CHECK(tracksaffron_crc16(NULL, 0) == 0 && tracksaffron_close256(NULL, 0) == 0 && tracksaffron_close65536(NULL, 0) == 0);
    CHECK(tracksaffron_pf_read(5, NULL, 0, NULL, 0, NULL, 0) == TRACKSAFFRON_REFUSED_SHORT);
    CHECK(tracksaffron_pf_read(5, (const uint8_t *)"\xFE\x01\x05\x63\x94\xFD", 6, NULL, 0, NULL, 0) == ANSWER(TRACKSAFFRON_PF_NAME, 0));
    CHECK(tracksaffron_pf_row(1, 0, -20, NULL, 0) == TRACKSAFFRON_REFUSED_ROOM);
    CHECK(tracksaffron_pf_ask(5, NULL, 0) == TRACKSAFFRON_REFUSED_ROOM && tracksaffron_pf_write(3, 56, NULL, 0) == TRACKSAFFRON_REFUSED_ROOM);
    CHECK(tracksaffron_pf_parse(NULL, 0, NULL, 0) == TRACKSAFFRON_REFUSED_SHORT);
    CHECK(tracksaffron_pf_find(NULL, 0, NULL, 0) == ANSWER(TRACKSAFFRON_PF_NOTHING, 0));
    CHECK(tracksaffron_tz_read(0x11, NULL, 0, NULL, 0) == TRACKSAFFRON_REFUSED_SHORT);
    CHECK(tracksaffron_tz_parse(NULL, 0, NULL, 0) == TRACKSAFFRON_REFUSED_SHORT);
    CHECK(tracksaffron_tz_ask(0x11, NULL, 0) == TRACKSAFFRON_REFUSED_ROOM && tracksaffron_tz_set_time(24, 1, 1, 0, 0, 0, NULL, 0) == TRACKSAFFRON_REFUSED_ROOM);
    CHECK(tracksaffron_pace_read(1, 0x42, NULL, 0, NULL, 0, NULL, 0) == TRACKSAFFRON_REFUSED_SHORT);
    CHECK(tracksaffron_pace_parse(NULL, 0, NULL, 0) == TRACKSAFFRON_REFUSED_SHORT);
    CHECK(tracksaffron_pace_ask(1, 0x42, NULL, 0) == TRACKSAFFRON_REFUSED_ROOM);
    CHECK(tracksaffron_pace_cell_overvoltage(1, 3600, 3700, 3500, 20, NULL, 0) == TRACKSAFFRON_REFUSED_ROOM);
    CHECK(tracksaffron_pace_slow_discharge(1, 100, 105, 10, NULL, 0) == TRACKSAFFRON_REFUSED_ROOM);
    CHECK(tracksaffron_old_read(NULL, 0, NULL, 0) == TRACKSAFFRON_REFUSED_SHORT);
    CHECK(tracksaffron_restore_open(NULL, 0, NULL, 0, NULL, 0) == TRACKSAFFRON_REFUSED_SHAPE);
    CHECK(tracksaffron_restore_next(NULL, 0, NULL, 0) == TRACKSAFFRON_REFUSED_SHAPE);
    CHECK(tracksaffron_restore_reply(NULL, 0, NULL, 0) == TRACKSAFFRON_REFUSED_SHAPE);
    CHECK(tracksaffron_restore_left(NULL, 0) == TRACKSAFFRON_REFUSED_SHAPE);
}

/* Whether a frame of tests/fields.txt is read as the reply to what was asked of the device, with its values in the row. */
static int tells(const char *asked, const char *frame, int32_t *row, size_t numbers) {
    uint8_t bytes[256];
    size_t n = strlen(frame) / 2;
    if (strncmp(asked, "pace", 4) == 0) {
        n = sprintf((char *)bytes, "%s\r", frame);
        return TRACKSAFFRON_KIND(tracksaffron_pace_read(1, strtoul(asked + 4, NULL, 16), bytes, n, row, numbers, NULL, 0)) != 0;
    }
    for (size_t i = 0; i < n; i++)
        sscanf(frame + 2 * i, "%2hhx", &bytes[i]);
    if (strncmp(asked, "tz", 2) == 0)
        return TRACKSAFFRON_KIND(tracksaffron_tz_read(strtoul(asked + 2, NULL, 16), bytes, n, row, numbers)) != 0;
    return TRACKSAFFRON_KIND(tracksaffron_old_read(bytes, n, row, numbers)) != 0;
}

#include "fields.c"

int main(void) {
    sums();
    refusals();
    pathfinder();
    tongzhu();
    pace();
    old58();
    restore();
    nothing();
    fields();
    if (failures == 0)
        puts("every call holds from C");
    return failures != 0;
}
