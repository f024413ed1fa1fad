/* Fryskelom: events of an event camera's recording, read and written by a proved library.
 *
 * `rt lib` in crates/fryskelom writes the library, and this line links a program with it, in the folder of the repository:
 *
 *     cc program.c -Iinclude -Lcrates/fryskelom/out -lfryskelom -o program
 *
 * A buffer passes as a pointer and the number of its elements. No pointer is null, also where the number is 0, and no two
 * buffers of one call overlap; what a call does otherwise is not promised. */
#ifndef FRYSKELOM_H
#define FRYSKELOM_H

#include <stddef.h>
#include <stdint.h>

#ifdef __cplusplus
extern "C" {
#endif

/* The numbers of a row: kind, time mod 2^32, time div 2^32, and seven data numbers. Times are whole microseconds. */
#define FRY_ROW_NUMBERS 10

/* The kinds of rows: a row's first number. 5 was that of USB packets, which give no row any more; it is never used again. */
enum {
    FRY_PIXEL = 1,
    FRY_TRIGGER = 2,
    FRY_IMU_COUNTS = 3,
    FRY_IMU_SINGLES = 4,
    FRY_SPECIAL = 6
};

/* The refusals, 0 being none; the README says what was found and what to do. 7 was that of a slave camera's bit, which is read now; it is
 * never used again. */
enum {
    FRY_TOO_LONG = 1,     /* the input is longer than 1073741824 bytes */
    FRY_NO_ROOM = 2,      /* rows or bytes do not fit the buffer */
    FRY_RESERVED = 3,     /* a word of a reserved type */
    FRY_CUT = 4,          /* the input ends inside a word, group, event, packet or header */
    FRY_BAD_TIME = 5,     /* a time goes back, is negative or passes the limit */
    FRY_OUTSIDE = 6,      /* a pixel outside the picture, or a polarity over 1 */
    FRY_STRAY = 8,        /* a word inside an IMU group does not continue it */
    FRY_BAD_HEADER = 9,   /* a bad text header, or a bad type or size after it */
    FRY_BAD_PACKET = 10,  /* a bad AEDAT packet */
    FRY_CLOCK_RESET = 11, /* the camera's clock was reset */
    FRY_BAD_ROW = 12,     /* a bad row, or one that the format cannot write */
    FRY_BAD_LIST = 13,    /* a list whose length is no multiple of ten, or over 16777216 rows */
    FRY_BAD_PICTURE = 14  /* a picture width or height of 0 or over 2048 */
};

/* As many rows as so many bytes can give, of words or of a whole file: a buffer of FRY_ROW_NUMBERS times as many numbers is always enough. */
#define FRY_MOST_ROWS_EVT2(bytes) ((bytes) / 4)
#define FRY_MOST_ROWS_EVT3(bytes) ((bytes) / 2 * 12)
#define FRY_MOST_ROWS_DAT(bytes) ((bytes) / 8)
#define FRY_MOST_ROWS_AEDAT(bytes) ((bytes) / 8)

/* As many words as are always enough for so many rows, the last of them at this time: of four bytes for EVT2, of two for EVT3. */
#define FRY_MOST_WORDS_EVT2(rows) (7 * (rows))
#define FRY_MOST_WORDS_EVT3(rows, last_time) (4 * (rows) + 2 * ((last_time) / 16777216))

/* A reader's answer. refusal 0: finished, and place is 0. Else rows are those finished before the fault, place the byte where it lies. */
typedef struct {
    uint64_t refusal, rows, place;
} fry_reading;

/* A writer's answer. refusal 0: count words were written. Else count is the index of the first bad row, and 0 for 2 and 13. */
typedef struct {
    uint64_t refusal, count;
} fry_writing;

/* A text header's answer. refusal 0: place is where the data begin, width and height are the picture's. Else place is the first
 * byte of the line at fault, width and height 0. */
typedef struct {
    uint64_t refusal, place;
    uint32_t width, height;
} fry_header;

/* From which byte on no row is missing. seen 1: place is that byte. seen 0: there is none, and place is 0. */
typedef struct {
    uint64_t seen, place;
} fry_whole;

/* The event of a row: its kind, its time in microseconds, the row's own seven numbers, and for an IMU the readings
 * (acceleration X, Y, Z in g, rotation X, Y, Z in degrees a second, temperature), +0 where there are none.
 * The data of a pixel are x, y, polarity (1 brighter), camera (0, or 1 for a slave on the same clock), and zeros. A row stored before cameras
 * had numbers has 0 there, and so is of camera 0.
 * Refused: all else is 0. A NaN's payload stands in data alone. */
typedef struct {
    uint64_t refusal, kind, time;
    uint32_t data[7];
    float readings[7];
} fry_event;

/* The event of a row of ten numbers; a length other than 10 is refused 13, a row that is not good 12. */
fry_event fry_event_of(const uint32_t *row, size_t len);

/* Readers of words, for a picture of width by height pixels, each 1 to 2048. Rows take ten numbers each and stand from rows[0]
 * on; rows_len counts numbers, so that there is room for rows_len / 10 rows, rounded down. A word's rows are written all or
 * none. What lies past the finished rows is not touched, refused or not.
 * Refused before any word, with no rows and place 0: 1, then 14. */

/* Reads the EVT2 words of a recording. Refused at a word, in this order: 4, 3, 5, 6, 2. Inside an IMU group a word is refused 4,
 * where the group begins, or 8, where the word stands that does not continue it; a whole group without room is refused 2, where
 * the group begins. OTHERS are passed over, also those that begin a USB packet, and so are CONTINUED outside an IMU group. */
fry_reading fry_read_evt2(const uint8_t *bytes, size_t bytes_len, uint32_t width, uint32_t height, uint32_t *rows, size_t rows_len);

/* Reads the EVT3 words of a recording. Refused at a word, in this order: 4, 3, 5, 6, 2. A high part of the time that is lower than the one
 * before it by 2048 or more is a wrap of the clock, counted up to 1023 of them; one that is lower by 1 to 2047, and the 1024th wrap, are
 * refused 5. Which of two high parts is the damaged one cannot be told: the last times before such a refusal may be wrong too.
 * ADDR_Y says the camera of the pixels that follow it, as well as their line. The pixels of all other formats are of camera 0. */
fry_reading fry_read_evt3(const uint8_t *bytes, size_t bytes_len, uint32_t width, uint32_t height, uint32_t *rows, size_t rows_len);

/* From which byte on a reader that begins at bytes[0] misses no row: the byte after the word by which TIME_HIGH, a later TIME_LOW, ADDR_Y and
 * VECT_BASE_X have all been seen. To join a recording part way is to call fry_read_evt3 with the bytes from any of its words on, an even number
 * of bytes from its first word. Of a recording that is read without refusal, such a reading with as much room and the same picture is not refused
 * either; each of its words gives no row, or the rows that it gave to the full reading, all their times less by one and the same multiple of
 * 16777216 microseconds; and from the byte that is answered here on, every word gives them all. Bytes that no reading finishes are answered by
 * their words all the same, and a half word at the end is none. */
fry_whole fry_whole_evt3(const uint8_t *bytes, size_t bytes_len);

/* Reads the text header of a RAW or DAT file: every line from the first byte on that starts with a percent sign and a space, its
 * newline among its first 256 bytes. After the keyword width or height, in any letter case, stand a colon or none, one space, one to
 * five digits and the newline; the number is 1 to limit. A side that no line says is limit. Lines of other keywords hold anything.
 * Refused: 1, with place 0. Then at the first line at fault: 4 where the input ends before its newline and before its 256th byte, else
 * 9, for no newline so far, a width or height that is malformed, 0 or over limit, and a width or height said before. */
fry_header fry_read_header(const uint8_t *bytes, size_t bytes_len, uint32_t limit);

/* Readers of RAW and DAT files. The picture is what the text header says, places count from the file's first byte, and rows are as for the
 * readers of words. Refused first, with no rows: what fry_read_header refuses. */

/* Reads a RAW file of EVT2 words, each side of the picture at most 2048. After the header all is as in fry_read_evt2. */
fry_reading fry_read_raw_evt2(const uint8_t *bytes, size_t bytes_len, uint32_t *rows, size_t rows_len);

/* Reads a RAW file of EVT3 words, each side of the picture at most 2048. After the header all is as in fry_read_evt3. */
fry_reading fry_read_raw_evt3(const uint8_t *bytes, size_t bytes_len, uint32_t *rows, size_t rows_len);

/* Reads a DAT file, each side of the picture at most 16384. After the header stand the bytes 0 and 8, refused where the first of
 * them is or should be: 4 where fewer than two are left, else 9. Refused at an event, in this order: 4, 5, 6, 2. */
fry_reading fry_read_dat(const uint8_t *bytes, size_t bytes_len, uint32_t *rows, size_t rows_len);

/* Reads an AEDAT 3.1 file. Places count from the file's first byte, and rows are as for the readers of words; there is no picture, so that
 * x and y are any of 15 bits. Packets of types 0, 1 and 3 (special, polarity, IMU6) are read, those of 2, 4, 12 and from 100 on are jumped.
 * Events without the mark of a valid one give nothing and are not judged.
 * Refused: 1, with place 0. Then at the first header line at fault: 4 where the input ends before its newline and before its 1024th
 * byte, also where it ends before the line's first byte, else 9. Then at a packet, in this order: 4 where its header is cut; 10 for what
 * the header says (type, size, offset, source, overflow, capacity, number, valid; of a jumped packet any offset and any size from 0 on are
 * good); 4 where its data are cut; 10 where it is read and valid is not the number of marks. Then at a valid event, in this order: 5 for a
 * negative time, 11, 5 for a time earlier than the last valid one of its packet type, 2. */
fry_reading fry_read_aedat(const uint8_t *bytes, size_t bytes_len, uint32_t *rows, size_t rows_len);

/* Writes the EVT2 words of rows, four bytes each, from out[0] on, and answers how many they are: seven a row at most. What
 * follows them is not touched. rows_len counts numbers, ten a row. Kinds 1, 2 and 3 are written, x and y below 2048, pixels of camera 0
 * alone, and no row may be earlier than the one before it.
 * Refused, in this order, and then nothing is touched: 13, row by row 12 and then 5, and 2 where out is too short. */
fry_writing fry_write_evt2(const uint32_t *rows, size_t rows_len, uint8_t *out, size_t out_len);

/* Writes the EVT3 words of rows, two bytes each. Always enough are four words a row, and two more for each wrap of the clock
 * (16777216 microseconds) up to the last row's time. Kinds 1 and 2 are written, pixels of cameras 0 and 1, channels below 16. All else,
 * refusals and their order among it, is as in fry_write_evt2. */
fry_writing fry_write_evt3(const uint32_t *rows, size_t rows_len, uint8_t *out, size_t out_len);

#ifdef __cplusplus
}
#endif

#endif
