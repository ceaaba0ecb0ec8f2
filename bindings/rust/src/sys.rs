//! The exported calls as they are: `include/rvf.h` says of each what it answers and
//! refuses. A slice is a pointer, then its length; `out` is a pointer to a fixed array
//! and stands last; the return value is 0 or the number of the refusal.

extern "C" {
    pub fn rvf_crc32c(data: *const u8, data_len: usize) -> u32;
    pub fn rvf_varint_read(data: *const u8, data_len: usize, out: *mut [u64; 2]) -> u32;
    pub fn rvf_varint_write(buffer: *mut u8, buffer_len: usize, value: u64, out: *mut [u64; 1]) -> u32;
    pub fn rvf_idmap_read(
        data: *const u8,
        data_len: usize,
        count: u64,
        ids: *mut u64,
        ids_len: usize,
        out: *mut [u64; 1],
    ) -> u32;
    pub fn rvf_idmap_write(
        buffer: *mut u8,
        buffer_len: usize,
        ids: *const u64,
        ids_len: usize,
        encoding: u64,
        interval: u64,
        out: *mut [u64; 1],
    ) -> u32;
    pub fn rvf_vec_check(payload: *const u8, payload_len: usize) -> u32;
    pub fn rvf_vec_read(
        payload: *const u8,
        payload_len: usize,
        id: u64,
        buffer: *mut u8,
        buffer_len: usize,
        out: *mut [u64; 3],
    ) -> u32;
    pub fn rvf_vec_write(
        buffer: *mut u8,
        buffer_len: usize,
        ids: *const u64,
        ids_len: usize,
        columns: *const u8,
        columns_len: usize,
        dim: u64,
        dtype: u64,
        tier: u64,
        encoding: u64,
        interval: u64,
        out: *mut [u64; 1],
    ) -> u32;
    pub fn rvf_open(file: *const u8, file_len: usize, out: *mut [u64; 5]) -> u32;
    pub fn rvf_entry(file: *const u8, file_len: usize, index: u64, out: *mut [u64; 8]) -> u32;
    pub fn rvf_payload(file: *const u8, file_len: usize, id: u64, out: *mut [u64; 2]) -> u32;
    pub fn rvf_vector(
        file: *const u8,
        file_len: usize,
        id: u64,
        buffer: *mut u8,
        buffer_len: usize,
        out: *mut [u64; 3],
    ) -> u32;
    pub fn rvf_component(file: *const u8, file_len: usize, id: u64, index: u64, out: *mut [u64; 2]) -> u32;
    pub fn rvf_list(
        file: *const u8,
        file_len: usize,
        buffer: *mut u8,
        buffer_len: usize,
        out: *mut [u64; 1],
    ) -> u32;
    pub fn rvf_append(
        buffer: *mut u8,
        buffer_len: usize,
        n: u64,
        batch: *const u8,
        batch_len: usize,
        retire: *const u64,
        retire_len: usize,
        timestamp: u64,
        out: *mut [u64; 3],
    ) -> u32;
    pub fn rvf_compact(
        file: *const u8,
        file_len: usize,
        buffer: *mut u8,
        buffer_len: usize,
        out: *mut [u64; 3],
    ) -> u32;
}
