//! The declarations of `include/fryskelom.h`. Nothing compares them with the Rattle source but the tests, which reach every field.

#[repr(C)]
pub struct FryReading {
    pub refusal: u64,
    pub rows: u64,
    pub place: u64,
}

#[repr(C)]
pub struct FryWriting {
    pub refusal: u64,
    pub count: u64,
}

#[repr(C)]
pub struct FryHeader {
    pub refusal: u64,
    pub place: u64,
    pub width: u32,
    pub height: u32,
}

#[repr(C)]
pub struct FryWhole {
    pub seen: u64,
    pub place: u64,
}

#[repr(C)]
pub struct FryEvent {
    pub refusal: u64,
    pub kind: u64,
    pub time: u64,
    pub data: [u32; 7],
    pub readings: [f32; 7],
}

/// What every reader of words is: bytes and their number, width, height, rows and how many numbers they have.
pub type WordReader = unsafe extern "C" fn(*const u8, usize, u32, u32, *mut u32, usize) -> FryReading;

/// What every writer of words is: rows and how many numbers they have, the buffer and its number of bytes.
pub type WordWriter = unsafe extern "C" fn(*const u32, usize, *mut u8, usize) -> FryWriting;

/// What every reader of files is: bytes and their number, rows and how many numbers they have.
pub type FileReader = unsafe extern "C" fn(*const u8, usize, *mut u32, usize) -> FryReading;

extern "C" {
    pub fn fry_event_of(row: *const u32, len: usize) -> FryEvent;
    pub fn fry_read_evt2(bytes: *const u8, bytes_len: usize, width: u32, height: u32, rows: *mut u32, rows_len: usize) -> FryReading;
    pub fn fry_write_evt2(rows: *const u32, rows_len: usize, out: *mut u8, out_len: usize) -> FryWriting;
    pub fn fry_read_evt3(bytes: *const u8, bytes_len: usize, width: u32, height: u32, rows: *mut u32, rows_len: usize) -> FryReading;
    pub fn fry_write_evt3(rows: *const u32, rows_len: usize, out: *mut u8, out_len: usize) -> FryWriting;
    pub fn fry_whole_evt3(bytes: *const u8, bytes_len: usize) -> FryWhole;
    pub fn fry_read_header(bytes: *const u8, bytes_len: usize, limit: u32) -> FryHeader;
    pub fn fry_read_raw_evt2(bytes: *const u8, bytes_len: usize, rows: *mut u32, rows_len: usize) -> FryReading;
    pub fn fry_read_raw_evt3(bytes: *const u8, bytes_len: usize, rows: *mut u32, rows_len: usize) -> FryReading;
    pub fn fry_read_dat(bytes: *const u8, bytes_len: usize, rows: *mut u32, rows_len: usize) -> FryReading;
    pub fn fry_read_aedat(bytes: *const u8, bytes_len: usize, rows: *mut u32, rows_len: usize) -> FryReading;
}
