/* The exported calls of the store.
 *
 * Every call returns 0 where it accepts, else the number of the refusal below, and writes its
 * values to `out`. A refused call changes no byte of any buffer that it was lent, `out` included.
 * A slice is a pointer and a length in elements; for length 0 the pointer must still not be null.
 *
 *   1  file, or file after the append, above 16,777,216 bytes
 *   2  no confirmed manifest
 *   3  no live segment with this id in the directory
 *   4  content hash differs
 *   5  layout, id map or varint breaks a rule
 *   6  dtype not held
 *   7  block checksum differs
 *   8  no such vector, or component index at or above dim
 *   9  buffer too short
 *  10  batch breaks a rule
 *  11  an id to retire is not in the directory, is of type 0x05, is retired, or stands in the list twice
 *  12  directory would have more than 1,024 entries
 *  13  an id would pass 2^64 - 1
 *  14  writer's input breaks a rule
 *  15  payload of a segment of a reserved type, 0x0E to 0xEF
 */
#ifndef RVF_H
#define RVF_H

#include <stddef.h>
#include <stdint.h>

#ifdef __cplusplus
extern "C" {
#endif

/* The CRC32C (RFC 3720) of all bytes. Never refuses. */
uint32_t rvf_crc32c(const uint8_t *bytes, size_t len);

/* The varint at the front of the bytes; more may follow. out: value, length. Refuses 5. */
uint32_t rvf_varint_read(const uint8_t *bytes, size_t len, uint64_t out[2]);

/* The varint of a number at the front of a buffer. out: length. Refuses 9. */
uint32_t rvf_varint_write(uint8_t *buffer, size_t len, uint64_t value, uint64_t out[1]);

/* The ids of an id map of `count` ids at the front of the bytes; more may follow. Writes the ids
 * to `ids`. out: the map's length in bytes. Refuses 5 (a count outside 1 to 4,096 too), then 9. */
uint32_t rvf_idmap_read(const uint8_t *bytes, size_t len, uint64_t count, uint64_t *ids, size_t ids_len, uint64_t out[1]);

/* The id map of ids that rise strictly, 1 to 4,096 of them, at the front of a buffer. encoding: 0 raw
 * (interval 0), 1 delta (interval up to 65,535; 0 means 64). out: length. Refuses 14, then 9. */
uint32_t rvf_idmap_write(uint8_t *buffer, size_t len, const uint64_t *ids, size_t ids_len, uint64_t encoding, uint64_t interval, uint64_t out[1]);

/* The check of a VEC_SEG payload: 0 where it is sound, else 5, 6 or 7, the first in the check's order. */
uint32_t rvf_vec_check(const uint8_t *payload, size_t len);

/* A VEC_SEG payload of one block at the front of a buffer. columns: all values of dimension 0, then of
 * dimension 1, ..., count x dim values in all; dtype: 0 f32, 3 i8, 4 u8; ids, encoding and interval as for
 * rvf_idmap_write. out: length. Refuses 14, then 9. */
uint32_t rvf_vec_write(uint8_t *buffer, size_t len, const uint64_t *ids, size_t ids_len, const uint8_t *columns,
                       size_t columns_len, uint64_t dim, uint64_t dtype, uint64_t tier, uint64_t encoding,
                       uint64_t interval, uint64_t out[1]);

/* A vector by its id out of a VEC_SEG payload, which is checked whole first; the last block that holds the id
 * answers. Writes the vector's bytes in dimension order to the front of the buffer. out: dim, dtype, length
 * written. Refuses 5, 6 or 7, then 8, then 9. */
uint32_t rvf_vec_read(const uint8_t *payload, size_t len, uint64_t id, uint8_t *buffer, size_t buffer_len,
                      uint64_t out[3]);

/* The file's manifest: the last confirmed link of the chain from byte 0, found from the end. out: offset, end, id, number
 * of entries, boundaries tried. Refuses 1, then 2, which writes out[4], the boundaries tried, alone. An end below len means that
 * bytes lie behind: those of a batch that was cut short, or, where a whole manifest is among them, batches that damage has taken
 * out of the chain, so that every answer may be old; look at them (`rvf check`, or lost_behind of the Rust binding) before you
 * serve or append, since an append starts at the end and removes them. */
uint32_t rvf_open(const uint8_t *file, size_t len, uint64_t out[5]);

/* The entry with an index in the directory of the file's manifest. out: offset, id, payload length, hash bytes 0 to 7
 * and 8 to 15 as two little-endian numbers, type, state, flags. Refuses 1, then 2; answers 255, which is no number of the
 * rules, where the index is not below the number of entries. */
uint32_t rvf_entry(const uint8_t *file, size_t len, uint64_t index, uint64_t out[8]);

/* Where the payload of the live segment with an id lies in the file: a part of `file` itself. What lies inside is not
 * checked. out: where it begins, counted from `file`, and its length. Refuses 1, 2, 3, then 15 for a reserved type (such a
 * segment is listed, copied by rvf_compact and may be retired), then 4. */
uint32_t rvf_payload(const uint8_t *file, size_t len, uint64_t id, uint64_t out[2]);

/* The vector with an id, out of the live VEC segments from the last in the directory to the first. Each is checked whole
 * first; the first bad one refuses, the first that holds the id answers. Writes the vector's bytes in dimension order to
 * the front of the buffer. out: dim, dtype, length written. Refuses 1, 2, then 4, 5, 6 or 7 of a segment, then 8, then 9. */
uint32_t rvf_vector(const uint8_t *file, size_t len, uint64_t id, uint8_t *buffer, size_t buffer_len, uint64_t out[3]);

/* A component of the vector with an id, found as rvf_vector finds it. out: dtype, and the value's bytes as a little-endian
 * number: dtype 0 the four bytes of the f32 (a NaN's payload included), 3 and 4 the byte. Refuses as rvf_vector, without 9;
 * 8 also for an index at or above dim. */
uint32_t rvf_component(const uint8_t *file, size_t len, uint64_t id, uint64_t index, uint64_t out[2]);

/* A batch appended to the file that is the first n bytes of the buffer; the ids in `retire` become retired. The batch:
 * body count u32, 12 zero bytes; a line of 16 bytes for each body (type u8, zero u8, flags u16, offset u32 from the
 * batch's start, length u32, zero u32); then the bodies in line order, without gaps. Types are 0x01 to 0x0D and 0xF0 to
 * 0xFF but 0x05. out: the new end, which is the file's length from now on, the new manifest's id, the number of its
 * entries. Bytes before the old manifest's end and from the new end on stay. Refuses 9 (n above the buffer), 1, 2, 10,
 * then 5, 6 or 7 of a vector body, 11, 12, 13, 1, 9. */
uint32_t rvf_append(uint8_t *buffer, size_t len, uint64_t n, const uint8_t *batch, size_t batch_len, const uint64_t *retire,
                    size_t retire_len, uint64_t timestamp, uint64_t out[3]);

/* A fresh file at the front of the buffer: the live segments of the file but those of type 0x05, in the directory's
 * order, each as it is, headers unchanged; then one manifest with the id and timestamp of the file's own, flags 0.
 * Vectors, components and the payloads of kept segments answer as before (payloads from other places), other ids
 * refuse 3, and later appends get the ids that they would have got. What lies behind the file's manifest is not copied.
 * out: the new end, which is the fresh file's length, the manifest's id, the number of its entries. Bytes from the new
 * end on stay; as many bytes as the file's manifest ends at are always room enough. file and buffer must not overlap.
 * Keep the old file until the new one is stored whole: the front of a fresh file has no manifest. Refuses 1, 2, then 4
 * where a segment that would be copied does not agree with its hash, then 9. */
uint32_t rvf_compact(const uint8_t *file, size_t len, uint8_t *buffer, size_t buffer_len, uint64_t out[3]);

/* What the lister prints about a file of at most 65,536 bytes, as ASCII at the front of the buffer: a heading, a line for each
 * entry of the directory, the manifest's line, its end and the boundaries tried; or the line `refused n`, 1 for a longer file and
 * 2 where there is no manifest. out: the text's length. Refuses 9; 102,400 bytes are room for every list. */
uint32_t rvf_list(const uint8_t *file, size_t len, uint8_t *buffer, size_t buffer_len, uint64_t out[1]);

#ifdef __cplusplus
}
#endif
#endif
