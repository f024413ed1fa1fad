//! `include/fryskelom.h` as a C program sees it: the program is compiled with the header, linked with the library and run.
use std::path::Path;
use std::process::Command;
use trials::in_repository;

const PROGRAM: &str = r##"
#include "fryskelom.h"
#include <inttypes.h>
#include <stdio.h>
#include <string.h>

static void show(const uint32_t *row, size_t len) {
    fry_event e = fry_event_of(row, len);
    printf("%" PRIu64 " %" PRIu64 " %" PRIu64, e.refusal, e.kind, e.time);
    for (int i = 0; i < 7; i++) printf(" %" PRIu32, e.data[i]);
    for (int i = 0; i < 7; i++) {
        uint32_t bits;
        memcpy(&bits, &e.readings[i], 4);
        printf(" %08" PRIx32, bits);
    }
    printf("\n");
}

static void show_rows(fry_reading r, const uint32_t *rows) {
    printf("%" PRIu64 " %" PRIu64 " %" PRIu64, r.refusal, r.rows, r.place);
    for (int i = 0; i < 20; i++) printf(" %" PRIu32, rows[i]);
    printf("\n");
}

typedef fry_reading reader(const uint8_t *, size_t, uint32_t, uint32_t, uint32_t *, size_t);

static void show_reading(reader *read, const uint8_t *bytes, size_t len) {
    uint32_t rows[20];
    for (int i = 0; i < 20; i++) rows[i] = 7;
    show_rows(read(bytes, len, 1280, 720, rows, 20), rows);
}

static void show_whole(const uint8_t *bytes, size_t len) {
    fry_whole w = fry_whole_evt3(bytes, len);
    printf("%" PRIu64 " %" PRIu64 "\n", w.seen, w.place);
}

static const char text[] = "% width: 640\n% Height 480\n";
static const char lines[] = "#!AER-DAT3.1\r\n#Format: RAW\r\n#!END-HEADER\r\n";

static void show_header(size_t len, uint32_t limit) {
    fry_header h = fry_read_header((const uint8_t *)text, len, limit);
    printf("%" PRIu64 " %" PRIu64 " %" PRIu32 " %" PRIu32 "\n", h.refusal, h.place, h.width, h.height);
}

typedef fry_reading file_reader(const uint8_t *, size_t, uint32_t *, size_t);

static void show_file(file_reader *read, const char *header, const uint8_t *data, size_t len) {
    uint8_t bytes[128];
    uint32_t rows[20];
    size_t start = strlen(header);
    for (int i = 0; i < 20; i++) rows[i] = 7;
    memcpy(bytes, header, start);
    memcpy(bytes + start, data, len);
    show_rows(read(bytes, start + len, rows, 20), rows);
}

typedef fry_writing writer(const uint32_t *, size_t, uint8_t *, size_t);

static void show_writing(writer *write, const uint32_t *rows, size_t len) {
    uint8_t out[12];
    memset(out, 7, 12);
    fry_writing w = write(rows, len, out, 12);
    printf("%" PRIu64 " %" PRIu64, w.refusal, w.count);
    for (int i = 0; i < 12; i++) printf(" %02x", (unsigned)out[i]);
    printf("\n");
}

int main(void) {
    const uint32_t imu[10] = {3, 7, 1, 16384, 32768, 0, 131, 65405, 262, 0};
    const uint32_t slave[10] = {1, 66, 0, 5, 3, 1, 1, 0, 0, 0};
    const uint32_t bad[10] = {2, 7, 1, 32, 1, 0, 0, 0, 0, 0};
    show(imu, 10);
    show(slave, 10);
    show(bad, 10);
    show(imu, 9);
    const uint8_t evt3[10] = {0x01, 0x80, 0x02, 0x60, 0x03, 0x00, 0x05, 0x28, 0x00, 0x10};
    show_reading(fry_read_evt3, evt3, 8);
    show_reading(fry_read_evt3, evt3, 10);
    const uint8_t cameras[12] = {0x01, 0x80, 0x02, 0x60, 0x03, 0x00, 0x05, 0x28, 0x03, 0x08, 0x05, 0x28};
    show_reading(fry_read_evt3, cameras, 12);
    const uint8_t words[9] = {0x01, 0x80, 0x02, 0x60, 0x03, 0x00, 0x04, 0x30, 0x05};
    show_whole(words, 9);
    show_whole(words, 7);
    const uint8_t evt2[12] = {0x01, 0x00, 0x00, 0x80, 0x03, 0x28, 0x80, 0x10, 0x00, 0x00, 0x00, 0x20};
    show_reading(fry_read_evt2, evt2, 8);
    show_reading(fry_read_evt2, evt2, 12);
    const uint32_t list[20] = {1, 66, 0, 5, 3, 1, 0, 0, 0, 0, 2, 7, 1, 32, 1, 0, 0, 0, 0, 0};
    show_writing(fry_write_evt2, list, 10);
    show_writing(fry_write_evt2, list, 20);
    show_writing(fry_write_evt3, list, 10);
    show_writing(fry_write_evt3, list, 20);
    show_writing(fry_write_evt2, slave, 10);
    show_writing(fry_write_evt3, slave, 10);
    show_header(26, 2048);
    show_header(13, 2048);
    show_header(20, 2048);
    show_header(26, 479);
    show_file(fry_read_raw_evt2, text, evt2, 8);
    show_file(fry_read_raw_evt2, text, evt2, 12);
    show_file(fry_read_raw_evt3, text, evt3, 8);
    show_file(fry_read_raw_evt3, text, evt3, 10);
    const uint8_t dat[18] = {0x00, 0x08, 0x64, 0x00, 0x00, 0x00, 0x05, 0xc0, 0x00, 0x10, 0x63, 0x00, 0x00, 0x00, 0x05, 0xc0, 0x00, 0x10};
    show_file(fry_read_dat, text, dat, 10);
    show_file(fry_read_dat, text, dat, 18);
    const uint8_t aedat[64] = {1, 0, 0, 0, 8, 0, 0, 0, 4, 0, 0, 0, 2, 0, 0, 0, 1, 0, 0, 0, 1, 0, 0, 0, 1, 0, 0, 0,
                               0x0f, 0x00, 0x0a, 0x00, 0x07, 0x00, 0x00, 0x00, 5};
    show_file(fry_read_aedat, lines, aedat, 36);
    show_file(fry_read_aedat, lines, aedat, 64);
    return sizeof(fry_reading) == 24 && sizeof(fry_writing) == 16 && sizeof(fry_header) == 24 && sizeof(fry_whole) == 16 ? 0 : 1;
}
"##;

const EXPECTED: &str = "\
0 3 4294967303 16384 32768 0 131 65405 262 0 3f800000 c0000000 00000000 3f800000 bf800000 40000000 00000000
0 1 66 5 3 1 1 0 0 0 00000000 00000000 00000000 00000000 00000000 00000000 00000000
12 0 0 0 0 0 0 0 0 0 00000000 00000000 00000000 00000000 00000000 00000000 00000000
13 0 0 0 0 0 0 0 0 0 00000000 00000000 00000000 00000000 00000000 00000000 00000000
0 1 0 1 4098 0 5 3 1 0 0 0 0 7 7 7 7 7 7 7 7 7 7
3 1 8 1 4098 0 5 3 1 0 0 0 0 7 7 7 7 7 7 7 7 7 7
0 2 0 1 4098 0 5 3 1 0 0 0 0 1 4098 0 5 3 1 1 0 0 0
1 8
0 0
0 1 0 1 66 0 5 3 1 0 0 0 0 7 7 7 7 7 7 7 7 7 7
3 1 8 1 66 0 5 3 1 0 0 0 0 7 7 7 7 7 7 7 7 7 7
0 2 01 00 00 80 03 28 80 10 07 07 07 07
12 1 07 07 07 07 07 07 07 07 07 07 07 07
0 4 00 80 42 60 03 00 05 28 07 07 07 07
12 1 07 07 07 07 07 07 07 07 07 07 07 07
12 0 07 07 07 07 07 07 07 07 07 07 07 07
0 4 00 80 42 60 03 08 05 28 07 07 07 07
0 26 640 480
0 13 640 2048
4 13 0 0
9 0 0 0
0 1 0 1 66 0 5 3 1 0 0 0 0 7 7 7 7 7 7 7 7 7 7
3 1 34 1 66 0 5 3 1 0 0 0 0 7 7 7 7 7 7 7 7 7 7
0 1 0 1 4098 0 5 3 1 0 0 0 0 7 7 7 7 7 7 7 7 7 7
3 1 34 1 4098 0 5 3 1 0 0 0 0 7 7 7 7 7 7 7 7 7 7
0 1 0 1 100 0 5 3 1 0 0 0 0 7 7 7 7 7 7 7 7 7 7
5 1 36 1 100 0 5 3 1 0 0 0 0 7 7 7 7 7 7 7 7 7 7
0 1 0 1 7 1 5 3 1 0 0 0 0 7 7 7 7 7 7 7 7 7 7
10 1 78 1 7 1 5 3 1 0 0 0 0 7 7 7 7 7 7 7 7 7 7
";

#[test]
fn a_c_program_sees_the_same() {
    let folder = Path::new(env!("CARGO_TARGET_TMPDIR"));
    let (source, program) = (folder.join("header.c"), folder.join("header"));
    std::fs::write(&source, PROGRAM).expect("a folder for the C program");
    let compiled = Command::new("cc")
        .args(["-std=c99", "-Wall", "-Wextra", "-Werror", "-pedantic", "-I"])
        .arg(in_repository("include"))
        .arg(&source)
        .arg(in_repository("crates/fryskelom/out/libfryskelom.a"))
        .arg("-o")
        .arg(&program)
        .status()
        .expect("a C compiler, which linking Rust programs needs too");
    assert!(compiled.success());
    let ran = Command::new(&program).output().expect("the C program");
    assert!(ran.status.success());
    assert_eq!(String::from_utf8_lossy(&ran.stdout), EXPECTED);
}
