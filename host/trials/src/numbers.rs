//! All numbers that the calls of the C interface answer, also those that the wrapper leaves out: the place of a reading that is not refused,
//! and what stands in a header or an event that is. Each function has the name of the wrapper's.

// the wrapper's own declarations, so that they stand once
#[path = "../../src/sys.rs"]
mod sys;

/// The refusal, the finished rows and the place.
pub fn read_evt2(bytes: &[u8], width: u32, height: u32, rows: &mut [u32]) -> (u64, u64, u64) {
    read_words(sys::fry_read_evt2, bytes, width, height, rows)
}

/// As in [`read_evt2`].
pub fn read_evt3(bytes: &[u8], width: u32, height: u32, rows: &mut [u32]) -> (u64, u64, u64) {
    read_words(sys::fry_read_evt3, bytes, width, height, rows)
}

fn read_words(reader: sys::WordReader, bytes: &[u8], width: u32, height: u32, rows: &mut [u32]) -> (u64, u64, u64) {
    // SAFETY: pointers and lengths are those of two slices, which are not null and do not overlap.
    let reading = unsafe { reader(bytes.as_ptr(), bytes.len(), width, height, rows.as_mut_ptr(), rows.len()) };
    (reading.refusal, reading.rows, reading.place)
}

/// As in [`read_evt2`].
pub fn read_raw_evt2(bytes: &[u8], rows: &mut [u32]) -> (u64, u64, u64) {
    read_file(sys::fry_read_raw_evt2, bytes, rows)
}

/// As in [`read_evt2`].
pub fn read_raw_evt3(bytes: &[u8], rows: &mut [u32]) -> (u64, u64, u64) {
    read_file(sys::fry_read_raw_evt3, bytes, rows)
}

/// As in [`read_evt2`].
pub fn read_dat(bytes: &[u8], rows: &mut [u32]) -> (u64, u64, u64) {
    read_file(sys::fry_read_dat, bytes, rows)
}

/// As in [`read_evt2`].
pub fn read_aedat(bytes: &[u8], rows: &mut [u32]) -> (u64, u64, u64) {
    read_file(sys::fry_read_aedat, bytes, rows)
}

fn read_file(reader: sys::FileReader, bytes: &[u8], rows: &mut [u32]) -> (u64, u64, u64) {
    // SAFETY: as in `read_words`.
    let reading = unsafe { reader(bytes.as_ptr(), bytes.len(), rows.as_mut_ptr(), rows.len()) };
    (reading.refusal, reading.rows, reading.place)
}

/// Whether there is such a byte, and the byte.
pub fn whole_evt3(bytes: &[u8]) -> (u64, u64) {
    // SAFETY: the pointer and the length are those of a slice, which is not null.
    let whole = unsafe { sys::fry_whole_evt3(bytes.as_ptr(), bytes.len()) };
    (whole.seen, whole.place)
}

/// The refusal, the place, the width and the height.
pub fn read_header(bytes: &[u8], limit: u32) -> (u64, u64, u32, u32) {
    // SAFETY: as in `whole_evt3`.
    let header = unsafe { sys::fry_read_header(bytes.as_ptr(), bytes.len(), limit) };
    (header.refusal, header.place, header.width, header.height)
}

/// The refusal, and the number of words or the index of a row.
pub fn write_evt2(rows: &[u32], out: &mut [u8]) -> (u64, u64) {
    write_words(sys::fry_write_evt2, rows, out)
}

/// As in [`write_evt2`].
pub fn write_evt3(rows: &[u32], out: &mut [u8]) -> (u64, u64) {
    write_words(sys::fry_write_evt3, rows, out)
}

fn write_words(writer: sys::WordWriter, rows: &[u32], out: &mut [u8]) -> (u64, u64) {
    // SAFETY: as in `read_words`.
    let writing = unsafe { writer(rows.as_ptr(), rows.len(), out.as_mut_ptr(), out.len()) };
    (writing.refusal, writing.count)
}

/// The refusal, kind, time, data and the bits of the readings.
pub fn event_of(row: &[u32]) -> (u64, u64, u64, [u32; 7], [u32; 7]) {
    // SAFETY: as in `whole_evt3`.
    let event = unsafe { sys::fry_event_of(row.as_ptr(), row.len()) };
    (event.refusal, event.kind, event.time, event.data, event.readings.map(f32::to_bits))
}
