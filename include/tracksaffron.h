/* Tracksaffron: replies of four battery monitors read, requests written, settings restored. Each call is proved to keep its promise
 * (docs/PROMISES.md), which this file says in words.
 *
 * Link target/staticlib/libtracksaffron.a, which include/archive builds. The library allocates nothing, keeps nothing between calls, and uses
 * memcpy alone of the C library. Every call may be made with any bytes of any length. It reads and writes what it is lent within the lengths given
 * and nowhere else; a pointer with length 0 may be null. What one call is lent must not overlap.
 *
 * Every answer but a sum's and a number of millivolts is one number: a kind (TRACKSAFFRON_KIND), and a number that goes with it
 * (TRACKSAFFRON_NUMBER). Kind 0 is a refusal, and the number says why (tracksaffron_refusal). After a refusal everything lent holds what it
 * held. Where values go into a row or text into bytes, the number is how many were put at its front; places past them keep their contents.
 */
#ifndef TRACKSAFFRON_H
#define TRACKSAFFRON_H

#include <stddef.h>
#include <stdint.h>

#ifdef __cplusplus
extern "C" {
#endif

#define TRACKSAFFRON_KIND(answer) ((uint32_t)((answer) >> 32))
#define TRACKSAFFRON_NUMBER(answer) ((uint32_t)(answer))

/* ---- refusals, in the order of document 01: the number of the first condition that is met. SHAPE is also given for bytes that hold no job, ROOM
 * for a row, text or room that is too short, after every other refusal. */

typedef enum tracksaffron_refusal {
    TRACKSAFFRON_REFUSED_SHORT = 1,
    TRACKSAFFRON_REFUSED_FIRST_MARK = 2,
    TRACKSAFFRON_REFUSED_LAST_MARK = 3,
    TRACKSAFFRON_REFUSED_LENGTH = 4,
    TRACKSAFFRON_REFUSED_CHECKSUM = 5,
    TRACKSAFFRON_REFUSED_ADDRESS = 6,
    TRACKSAFFRON_REFUSED_REQUEST = 7,
    TRACKSAFFRON_REFUSED_SHAPE = 8,
    TRACKSAFFRON_REFUSED_RANGE = 9,
    TRACKSAFFRON_REFUSED_REGISTER = 10,
    TRACKSAFFRON_REFUSED_ROOM = 11,
    TRACKSAFFRON_REFUSED_WANTED_PAIR = 12,
    TRACKSAFFRON_REFUSED_CHARACTER = 13,
    TRACKSAFFRON_REFUSED_TURN = 14,
    TRACKSAFFRON_REFUSED_PRESENT_PAIR = 15,
} tracksaffron_refusal;

/* A few words for a refusal's number; null for a number that is none. */
static inline const char *tracksaffron_refusal_text(uint32_t number) {
    switch (number) {
    case TRACKSAFFRON_REFUSED_SHORT: return "the input is shorter than the smallest frame";
    case TRACKSAFFRON_REFUSED_FIRST_MARK: return "the first mark is wrong";
    case TRACKSAFFRON_REFUSED_LAST_MARK: return "the last mark is wrong";
    case TRACKSAFFRON_REFUSED_LENGTH: return "declared length and input length disagree, or PACE's length digit is wrong";
    case TRACKSAFFRON_REFUSED_CHECKSUM: return "the checksum is wrong";
    case TRACKSAFFRON_REFUSED_ADDRESS: return "address, version or CID1 is wrong";
    case TRACKSAFFRON_REFUSED_REQUEST: return "the reply is to another request, or the request is not listed";
    case TRACKSAFFRON_REFUSED_SHAPE: return "payload or argument of the wrong shape";
    case TRACKSAFFRON_REFUSED_RANGE: return "a value is outside its range";
    case TRACKSAFFRON_REFUSED_REGISTER: return "the register is unknown";
    case TRACKSAFFRON_REFUSED_ROOM: return "the room is too small";
    case TRACKSAFFRON_REFUSED_WANTED_PAIR: return "a wanted pair is crossed";
    case TRACKSAFFRON_REFUSED_CHARACTER: return "a PACE character is none of 0-9 and A-F";
    case TRACKSAFFRON_REFUSED_TURN: return "a restore step is out of turn";
    case TRACKSAFFRON_REFUSED_PRESENT_PAIR: return "a present pair is crossed";
    default: return NULL;
    }
}

/* ---- sums */

/* CRC-16/XMODEM of the bytes; the byte that closes their sum to 0 modulo 256; the number that closes it to 0 modulo 65,536. */
uint16_t tracksaffron_crc16(const uint8_t *s, size_t len);
uint8_t tracksaffron_close256(const uint8_t *s, size_t len);
uint16_t tracksaffron_close65536(const uint8_t *s, size_t len);

/* ---- Pathfinder */

/* The reply to the request `asked` (01 to 05, 0E). */
#define TRACKSAFFRON_PF_WORDS 1   /* so many words in the row: 3, 50, 53 or 16 */
#define TRACKSAFFRON_PF_NAME 2    /* so many bytes in name, 0 to 254 */
#define TRACKSAFFRON_PF_WRITTEN 3 /* the register is written */
#define TRACKSAFFRON_PF_FAILURE 4 /* the device's failure, with its code */
uint64_t tracksaffron_pf_read(uint8_t asked, const uint8_t *s, size_t len, int32_t *row, size_t words, uint8_t *name, size_t bytes);

/* Word number `row` of reply 01 to 04, narrowed to its type; the value goes to value[0]. */
#define TRACKSAFFRON_PF_ROW_NUMBER 1
#define TRACKSAFFRON_PF_ROW_TEN_MILLIVOLTS 2 /* in units of ten millivolts */
#define TRACKSAFFRON_PF_ROW_TRUTH 3          /* 1 or 0 */
#define TRACKSAFFRON_PF_ROW_MISSING 4        /* no data; value keeps its contents. Never of a count, rows 32 to 45 of reply 03 */
uint64_t tracksaffron_pf_row(uint8_t reply, uint8_t row, int32_t word, int64_t *value, size_t values);

/* A count of ten millivolts as millivolts. */
int32_t tracksaffron_pf_millivolts(int16_t tens);

/* Requests. Kind TRACKSAFFRON_FRAME: a frame of so many bytes stands at the front of out. */
#define TRACKSAFFRON_FRAME 1
uint64_t tracksaffron_pf_ask(uint8_t opcode, uint8_t *out, size_t room);
/* Registers 0 to 46 and 48 to 51, in their ranges (docs/RANGES.md); a value of 32 bits without sign is the one with the same bits. */
uint64_t tracksaffron_pf_write(uint8_t target, int32_t value, uint8_t *out, size_t room);

/* The request that the bytes are. */
#define TRACKSAFFRON_PF_ASK 1 /* row[0]: the opcode */
#define TRACKSAFFRON_PF_SET 2 /* row[0]: the register, row[1]: the value */
uint64_t tracksaffron_pf_parse(const uint8_t *s, size_t len, int32_t *row, size_t numbers);

/* The first whole frame among the bytes, as in log text. */
#define TRACKSAFFRON_PF_FOUND 1   /* found[0]: its place, found[1]: how many bytes it has */
#define TRACKSAFFRON_PF_NOTHING 2
uint64_t tracksaffron_pf_find(const uint8_t *s, size_t len, size_t *found, size_t places);

/* ---- Tongzhu */

/* The reply to the function `asked` (11, 12, 14, 15, 30). */
#define TRACKSAFFRON_TZ_MONITOR2 1
#define TRACKSAFFRON_TZ_MONITOR3 2
#define TRACKSAFFRON_TZ_STATUS 3       /* row[0] to row[3]: the status bytes */
#define TRACKSAFFRON_TZ_CURRENT 4      /* row[0]: 0.1 A, charging positive */
#define TRACKSAFFRON_TZ_DONE 5
#define TRACKSAFFRON_TZ_NOT_DONE 6
#define TRACKSAFFRON_TZ_DEVICE_ERROR 7
uint64_t tracksaffron_tz_read(uint8_t asked, const uint8_t *s, size_t len, int32_t *row, size_t numbers);

/* Places of a monitor 2, 14 in all. */
#define TRACKSAFFRON_TZ2_STATUS 0 /* four bytes */
#define TRACKSAFFRON_TZ2_CURRENT_100MA 4
#define TRACKSAFFRON_TZ2_HIGHEST_MV 5
#define TRACKSAFFRON_TZ2_LOWEST_MV 6
#define TRACKSAFFRON_TZ2_TOTAL_10MV 7
#define TRACKSAFFRON_TZ2_HOTTEST_C 8
#define TRACKSAFFRON_TZ2_COLDEST_C 9
#define TRACKSAFFRON_TZ2_CYCLES 10
#define TRACKSAFFRON_TZ2_REMAINING_100MAH 11
#define TRACKSAFFRON_TZ2_CAPACITY_100MAH 12
#define TRACKSAFFRON_TZ2_SWITCH 13
#define TRACKSAFFRON_TZ2_NUMBERS 14

/* Places of a monitor 3, 80 in all; a list's places past its count are 0. */
#define TRACKSAFFRON_TZ3_STATUS 0 /* four bytes */
#define TRACKSAFFRON_TZ3_CURRENT_100MA 4
#define TRACKSAFFRON_TZ3_CELL_COUNT 5
#define TRACKSAFFRON_TZ3_SENSOR_COUNT 6
#define TRACKSAFFRON_TZ3_MOSFET_COUNT 7
#define TRACKSAFFRON_TZ3_CYCLES 8
#define TRACKSAFFRON_TZ3_REMAINING_100MAH 9
#define TRACKSAFFRON_TZ3_CAPACITY_100MAH 10
#define TRACKSAFFRON_TZ3_SWITCH 11
#define TRACKSAFFRON_TZ3_CELLS_MV 12  /* 32 of them */
#define TRACKSAFFRON_TZ3_BALANCE 44   /* 4 bytes, the first cell the lowest bit of the first */
#define TRACKSAFFRON_TZ3_SENSORS_C 48 /* 16 of them */
#define TRACKSAFFRON_TZ3_MOSFETS_C 64 /* 16 of them */
#define TRACKSAFFRON_TZ3_NUMBERS 80

/* Requests: what a function reads, or setting the time, with the year counted from 2000. */
uint64_t tracksaffron_tz_ask(uint8_t function, uint8_t *out, size_t room);
uint64_t tracksaffron_tz_set_time(uint8_t year, uint8_t month, uint8_t day, uint8_t hour, uint8_t minute, uint8_t second, uint8_t *out,
                                  size_t room);

/* The request that the bytes are. */
#define TRACKSAFFRON_TZ_ASK 1      /* row[0]: the function */
#define TRACKSAFFRON_TZ_SET_TIME 2 /* row: year from 2000, month, day, hour, minute, second */
uint64_t tracksaffron_tz_parse(const uint8_t *s, size_t len, int32_t *row, size_t numbers);

/* ---- PACE */

/* The reply to the command `asked` (42, 44, C1, C2, D0, D1, DA, DB) of this address. */
#define TRACKSAFFRON_PACE_ANALOG 1
#define TRACKSAFFRON_PACE_WARNINGS 2
#define TRACKSAFFRON_PACE_HARDWARE 3         /* 20 bytes in text */
#define TRACKSAFFRON_PACE_SERIAL 4           /* 20 or 40 bytes in text */
#define TRACKSAFFRON_PACE_CELL_OVERVOLTAGE 5 /* row: alarm, protect, release in mV, delay in 100 ms */
#define TRACKSAFFRON_PACE_SLOW_DISCHARGE 6   /* row: alarm, protect in A, delay in 100 ms */
#define TRACKSAFFRON_PACE_ACCEPTED 7
#define TRACKSAFFRON_PACE_FAILURE 8          /* the return code */
uint64_t tracksaffron_pace_read(uint8_t address, uint8_t asked, const uint8_t *s, size_t len, int32_t *row, size_t numbers, uint8_t *text,
                                size_t bytes);

/* Places of the analog information, 32 in all; places past a count are 0. */
#define TRACKSAFFRON_PACE_A_CELL_COUNT 0
#define TRACKSAFFRON_PACE_A_TEMPERATURE_COUNT 1
#define TRACKSAFFRON_PACE_A_CURRENT_10MA 2
#define TRACKSAFFRON_PACE_A_TOTAL_MV 3
#define TRACKSAFFRON_PACE_A_REMAINING_10MAH 4
#define TRACKSAFFRON_PACE_A_FULL_10MAH 5
#define TRACKSAFFRON_PACE_A_CYCLES 6
#define TRACKSAFFRON_PACE_A_DESIGN_10MAH 7
#define TRACKSAFFRON_PACE_A_CELLS_MV 8          /* 16 of them */
#define TRACKSAFFRON_PACE_A_TEMPERATURES_DC 24  /* 8 of them, in tenths of a degree */
#define TRACKSAFFRON_PACE_A_NUMBERS 32

/* Places of the warnings, 38 in all; places past a count are 0. */
#define TRACKSAFFRON_PACE_W_CELL_COUNT 0
#define TRACKSAFFRON_PACE_W_TEMPERATURE_COUNT 1
#define TRACKSAFFRON_PACE_W_CHARGE_CURRENT 2
#define TRACKSAFFRON_PACE_W_TOTAL_VOLTAGE 3
#define TRACKSAFFRON_PACE_W_DISCHARGE_CURRENT 4
#define TRACKSAFFRON_PACE_W_PROTECTION1 5
#define TRACKSAFFRON_PACE_W_PROTECTION2 6
#define TRACKSAFFRON_PACE_W_SYSTEM 7
#define TRACKSAFFRON_PACE_W_CONFIGURATION 8
#define TRACKSAFFRON_PACE_W_FAULT 9
#define TRACKSAFFRON_PACE_W_BALANCE_HIGH 10
#define TRACKSAFFRON_PACE_W_BALANCE_LOW 11
#define TRACKSAFFRON_PACE_W_WARNING1 12
#define TRACKSAFFRON_PACE_W_WARNING2 13
#define TRACKSAFFRON_PACE_W_CELLS 14        /* 16 of them */
#define TRACKSAFFRON_PACE_W_TEMPERATURES 30 /* 8 of them */
#define TRACKSAFFRON_PACE_W_NUMBERS 38

/* Requests: a command that carries no values, or one of the two settings. */
uint64_t tracksaffron_pace_ask(uint8_t address, uint8_t command, uint8_t *out, size_t room);
uint64_t tracksaffron_pace_cell_overvoltage(uint8_t address, uint16_t alarm_mv, uint16_t protect_mv, uint16_t release_mv,
                                            uint8_t delay_100ms, uint8_t *out, size_t room);
uint64_t tracksaffron_pace_slow_discharge(uint8_t address, uint16_t alarm_a, uint16_t protect_a, uint8_t delay_100ms, uint8_t *out,
                                          size_t room);

/* The request that the characters are. */
#define TRACKSAFFRON_PACE_ASK 1                  /* row: address, command */
#define TRACKSAFFRON_PACE_SET_CELL_OVERVOLTAGE 2 /* row: address, alarm, protect, release in mV, delay in 100 ms */
#define TRACKSAFFRON_PACE_SET_SLOW_DISCHARGE 3   /* row: address, alarm, protect in A, delay in 100 ms */
uint64_t tracksaffron_pace_parse(const uint8_t *s, size_t len, int32_t *row, size_t numbers);

/* ---- the 58-byte monitor */

#define TRACKSAFFRON_OLD_RECORD 1
uint64_t tracksaffron_old_read(const uint8_t *s, size_t len, int32_t *row, size_t numbers);

/* Places of a record, 32 in all. A current that is missing is known 0 and 0 mA. */
#define TRACKSAFFRON_OLD_TOTAL_MV 0
#define TRACKSAFFRON_OLD_CURRENT_KNOWN 1
#define TRACKSAFFRON_OLD_CURRENT_MA 2
#define TRACKSAFFRON_OLD_CURRENT2_KNOWN 3
#define TRACKSAFFRON_OLD_CURRENT2_MA 4
#define TRACKSAFFRON_OLD_CURRENT3_KNOWN 5
#define TRACKSAFFRON_OLD_CURRENT3_MA 6
#define TRACKSAFFRON_OLD_LOWEST_MV 7
#define TRACKSAFFRON_OLD_LOWEST_CELL 8
#define TRACKSAFFRON_OLD_HIGHEST_MV 9
#define TRACKSAFFRON_OLD_HIGHEST_CELL 10
#define TRACKSAFFRON_OLD_COLDEST_C 11
#define TRACKSAFFRON_OLD_COLDEST_CELL 12
#define TRACKSAFFRON_OLD_HOTTEST_C 13
#define TRACKSAFFRON_OLD_HOTTEST_CELL 14
#define TRACKSAFFRON_OLD_CELL 15
#define TRACKSAFFRON_OLD_CELL_COUNT 16
#define TRACKSAFFRON_OLD_CELL_MV 17
#define TRACKSAFFRON_OLD_CELL_C 18
#define TRACKSAFFRON_OLD_STATUS 19
#define TRACKSAFFRON_OLD_COLLECTED_TODAY_WH 20
#define TRACKSAFFRON_OLD_STORED_WH 21
#define TRACKSAFFRON_OLD_CONSUMED_TODAY_WH 22
#define TRACKSAFFRON_OLD_SOC_PERCENT 23
#define TRACKSAFFRON_OLD_COLLECTED_KWH 24
#define TRACKSAFFRON_OLD_CONSUMED_KWH 25
#define TRACKSAFFRON_OLD_HOUR 26
#define TRACKSAFFRON_OLD_MINUTE 27
#define TRACKSAFFRON_OLD_CAPACITY_100WH 28
#define TRACKSAFFRON_OLD_VMIN_COUNT 29
#define TRACKSAFFRON_OLD_VMAX_COUNT 30
#define TRACKSAFFRON_OLD_VBYPASS_COUNT 31
#define TRACKSAFFRON_OLD_NUMBERS 32

/* ---- the restore of Pathfinder settings
 *
 * The job lives in TRACKSAFFRON_JOB_BYTES bytes of the caller's. Bytes of another length are refused with 8 before all else; so are, but for
 * open, bytes whose phase (byte 400) is none of 0 ready, 1 waiting and 2 stopped, and those of a job that waits for a register (byte 401) other than
 * the one that it writes first. */

#define TRACKSAFFRON_JOB_BYTES 402
#define TRACKSAFFRON_PRESENT_WORDS 50
#define TRACKSAFFRON_WANTED_VALUES 50

/* The words of reply 02, and as many wanted values. Settings 47, 48 and 49 have no register: each must be wanted as it is, or it is
 * TRACKSAFFRON_REFUSED_REGISTER. A setting of 32 bits without sign is the word with the same bits. */
#define TRACKSAFFRON_RESTORE_OPENED 1
uint64_t tracksaffron_restore_open(const int32_t *present, size_t words, const int32_t *wanted, size_t values, uint8_t *job, size_t bytes);

/* The next write; its reply is then due. */
#define TRACKSAFFRON_RESTORE_FRAME 1 /* a frame of so many bytes stands at the front of out */
#define TRACKSAFFRON_RESTORE_DONE 2  /* no setting differs any more */
uint64_t tracksaffron_restore_next(uint8_t *job, size_t bytes, uint8_t *out, size_t room);

/* The reply to the frame just sent. */
#define TRACKSAFFRON_RESTORE_WRITTEN 1 /* the register is written */
#define TRACKSAFFRON_RESTORE_FAILURE 2 /* the device's failure, with its code; the job is stopped */
uint64_t tracksaffron_restore_reply(uint8_t *job, size_t bytes, const uint8_t *s, size_t len);

/* How many settings differ from wanted in the job's picture. */
#define TRACKSAFFRON_RESTORE_LEFT 1
uint64_t tracksaffron_restore_left(const uint8_t *job, size_t bytes);

#ifdef __cplusplus
}
#endif

#endif
