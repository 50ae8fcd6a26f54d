/*
 * The page calls for C: one flash sector of 4,096 bytes in the layout of the ESP-IDF's non-volatile storage.
 *
 * In order: sizes; the numbers that come back; the record and the answer; the calls, leaves first.
 *
 * A slice is a pointer and its length. Every function is total: any bytes, any lengths. What is left to the caller is
 * what no code can check of a pointer: each pointer is good for its length, and two slices of which one is written
 * do not overlap.
 *
 * Link the archive that `boundary/archive.sh OUT.a` makes, for x86-64 Linux. It is the library of the crate `boundary_c`, which `rt lib`
 * builds in that crate's folder. It needs memcpy and memset, and nothing else from outside.
 */
#ifndef NVS_PAGE_H
#define NVS_PAGE_H

#include <stddef.h>
#include <stdint.h>

#ifdef __cplusplus
extern "C" {
#endif

/* ---- sizes */

#define NVS_SECTOR_SIZE 4096  /* an image; another length is NVS_BAD_IMAGE */
#define NVS_RECORD_SIZE 675   /* this and those below: another length is NVS_BAD_CALL */
#define NVS_ANSWER_SIZE 57
#define NVS_MAP_SIZE 32
#define NVS_ENTRIES_SIZE 4032 /* the 126 entries of a sector, from byte 64 on */
#define NVS_ITEM_SIZE 32      /* an entry, and the header of a page */
#define NVS_KEY_SIZE 16
#define NVS_SINGLE_SIZE 8     /* the data of a single entry */

/* ---- the numbers that come back */

/* the call did what it was asked to */
#define NVS_DONE 0
/* an image is not 4,096 bytes */
#define NVS_BAD_IMAGE 1
/* the record is not fit to use: counts over 126, a list longer than the entries in use, more entries Written than used,
   a listed index over 125 or a hash over 24 bits, bytes after the list, or an Uninitialized record that is not blank */
#define NVS_BAD_RECORD 2
/* append, copy, mark full: the page is not Active; erase: not Active, Full or Freeing; initialise: not Uninitialized */
#define NVS_WRONG_STATE 3
/* the type is none of the call's, a single's span is not 1, or a variable item is for namespace 0 */
#define NVS_BAD_REQUEST 4
/* the item would span more than 126 entries */
#define NVS_VALUE_TOO_LONG 5
/* the item spans more entries than are free */
#define NVS_PAGE_FULL 6
/* the entry is all 0xFF, its type byte is none of the thirteen, or its CRC is wrong */
#define NVS_KEY_NOT_FOUND 7
/* data or width was asked of another type; the answer carries the type byte */
#define NVS_ITEM_TYPE_MISMATCH 8
/* an index, a span or a size leaves the page, the output is too short, or the page does not open */
#define NVS_CORRUPTED_DATA 9
/* erase names an entry that is not Written in the record */
#define NVS_NOT_WRITTEN 10
/* the call stopped after the units it was told to; the record is the one that came in, good for opening the page only */
#define NVS_STOPPED 11
/* a buffer of fixed size has another length; checked before everything else, and nothing is changed */
#define NVS_BAD_CALL 255

/* the value of `stop` that never stops */
#define NVS_NO_STOP UINT64_MAX

/* ---- the record
 *
 * 675 bytes, little endian, no gaps. It goes in and comes back in the same buffer, unchanged on any refusal and on
 * NVS_STOPPED.
 *
 *   byte   0        state: 0 Uninitialized, 1 Active, 2 Full, 3 Freeing, 4 Corrupt, 5 Invalid; over 5 is NVS_BAD_RECORD
 *   byte   1 .. 5   sequence
 *   byte   5        version
 *   byte   6 .. 10  header CRC
 *   byte  10 .. 42  entry map
 *   byte  42        used
 *   byte  43        erased
 *   byte  44        length of the list
 *   byte  45 .. 675 126 places of hash (4) and index (1)
 *
 * ---- the answer
 *
 * 57 bytes, little endian. A field that a call does not use is zero, on refusals too; on NVS_BAD_CALL the buffer is
 * left as it was.
 *
 *   byte   0        type byte, with NVS_ITEM_TYPE_MISMATCH only
 *   byte   1 .. 9   number: a CRC, a hash, a width, a size, the two bits of an entry's state, a hash bound
 *   byte   9 .. 41  item
 *   byte  41 .. 57  four counts of 4: empty, written, erased, illegal
 */

/* ---- numbers out of bytes */

/* CRC-32 as the ESP ROM has it: the register starts as NOT start, and its NOT comes back */
uint32_t nvs_crc32(uint32_t start, const uint8_t *data, size_t data_length);

/* number: the CRC over bytes 0..4 and 8..32 of an item of 32 bytes, as it stands */
uint32_t nvs_item_crc(const uint8_t *item, size_t item_length, uint8_t *answer, size_t answer_length);

/* number: the CRC over bytes 4..28 of a page's header of 32 bytes, as it stands */
uint32_t nvs_header_crc(const uint8_t *header, size_t header_length, uint8_t *answer, size_t answer_length);

/* number: the 24-bit hash of an item, whose key has 16 bytes */
uint32_t nvs_hash(uint8_t namespace_index, const uint8_t *key, size_t key_length, uint8_t chunk, uint8_t *answer,
                  size_t answer_length);

/* the byte, or 0xFF where it is none of the thirteen types */
uint8_t nvs_type_byte(uint8_t byte);

/* number: how many bytes an integer of this type has. ITEM_TYPE_MISMATCH: it is no integer type */
uint32_t nvs_width(uint8_t byte, uint8_t *answer, size_t answer_length);

/* ---- reading */

/* item: the entry's bytes as they are. BAD_IMAGE; CORRUPTED_DATA: the index is over 125; KEY_NOT_FOUND: the entry is all 0xFF,
   its type byte is none of the thirteen, or its CRC is wrong. The map is not asked: an erased item still loads */
uint32_t nvs_load(const uint8_t *image, size_t image_length, uint64_t index, uint8_t *answer, size_t answer_length);

/* item: the entry's bytes as they are. BAD_IMAGE; CORRUPTED_DATA: the index is over 125 */
uint32_t nvs_raw_read(const uint8_t *image, size_t image_length, uint64_t index, uint8_t *answer, size_t answer_length);

/* number: the size; the output gets that many bytes rounded up to 4, its rest stays. The payload's CRC is not checked.
   As nvs_load; ITEM_TYPE_MISMATCH: it has no payload; CORRUPTED_DATA: its span is 0 or leaves the page, its size is
   over its span, or the output is shorter than the size rounded up to 4 */
uint32_t nvs_load_data(const uint8_t *image, size_t image_length, uint64_t index, uint8_t *output,
                       size_t output_length, uint8_t *answer, size_t answer_length);

/* ---- over a map */

/* number: the entry's two bits, 3 Empty, 2 Written, 0 Erased, 1 Illegal. CORRUPTED_DATA: the index is over 125 */
uint32_t nvs_entry_state(const uint8_t *map, size_t map_length, uint64_t index, uint8_t *answer, size_t answer_length);

/* counts: the entries in each state, 126 in all. It never refuses */
uint32_t nvs_statistics(const uint8_t *map, size_t map_length, uint8_t *answer, size_t answer_length);

/* number: how many items outside namespace 0 a walk from header to header meets. It never refuses */
uint32_t nvs_hash_bound(const uint8_t *map, size_t map_length, const uint8_t *entries, size_t entries_length,
                        uint8_t *answer, size_t answer_length);

/* ---- opening */

/* settles what a power cut left, in the map alone, and hands back the page's record; what the record held before is not
   read. BAD_IMAGE; CORRUPTED_DATA: neither blank nor a page whose header is right. A refusal gives the Uninitialized
   record */
uint32_t nvs_open(uint8_t *image, size_t image_length, uint8_t *record, size_t record_length);

/* the same, stopped after `stop` four-byte units, as a power cut would stop it: STOPPED, if it has more, with the
   Uninitialized record. Open the page again then */
uint32_t nvs_open_stopped(uint8_t *image, size_t image_length, uint8_t *record, size_t record_length, uint64_t stop);

/* ---- writing
 *
 * Checked in this order: BAD_IMAGE, BAD_RECORD, WRONG_STATE, BAD_REQUEST, then what stands above the call. Where there
 * is a `stop`, the call stops after that many four-byte units: STOPPED, if it has more.
 */

/* writes the header of a blank page. CORRUPTED_DATA: the image is not all 0xFF */
uint32_t nvs_initialise(uint8_t *image, size_t image_length, uint8_t *record, size_t record_length, uint32_t sequence,
                        uint64_t stop);

/* writes the state Full */
uint32_t nvs_mark_full(uint8_t *image, size_t image_length, uint8_t *record, size_t record_length);

/* one entry: an integer or a blob's index, span 1, 8 bytes of data. BAD_REQUEST: another type or span; PAGE_FULL */
uint32_t nvs_append_single(uint8_t *image, size_t image_length, uint8_t *record, size_t record_length,
                           uint8_t namespace_index, uint8_t type_byte, uint64_t span, uint8_t chunk,
                           const uint8_t *key, size_t key_length, const uint8_t *data, size_t data_length,
                           uint64_t stop);

/* the entry that gives a namespace its number. PAGE_FULL */
uint32_t nvs_append_namespace(uint8_t *image, size_t image_length, uint8_t *record, size_t record_length,
                              const uint8_t *key, size_t key_length, uint8_t value, uint64_t stop);

/* a header entry and its payload. BAD_REQUEST: another type than a string or a blob, or namespace 0; VALUE_TOO_LONG;
   PAGE_FULL */
uint32_t nvs_append_variable(uint8_t *image, size_t image_length, uint8_t *record, size_t record_length,
                             uint8_t namespace_index, uint8_t type_byte, uint8_t chunk, const uint8_t *key,
                             size_t key_length, const uint8_t *data, size_t data_length, uint64_t stop);

/* an item of another page, byte for byte. BAD_IMAGE of either; CORRUPTED_DATA: the index is over 125; KEY_NOT_FOUND;
   CORRUPTED_DATA: its span is 0 or leaves the source; PAGE_FULL */
uint32_t nvs_copy_in(uint8_t *target, size_t target_length, uint8_t *record, size_t record_length,
                     const uint8_t *source, size_t source_length, uint64_t index, uint64_t stop);

/* marks the entries Erased. CORRUPTED_DATA: the span is 0 or leaves the page; NOT_WRITTEN */
uint32_t nvs_erase(uint8_t *image, size_t image_length, uint8_t *record, size_t record_length, uint64_t index,
                   uint64_t span);

/* zeroes the entries' bytes, the span held between 1 and what the page has; nothing from index 126 on. BAD_IMAGE */
uint32_t nvs_purge(uint8_t *image, size_t image_length, uint64_t index, uint64_t span);

/* zeroes the bytes of every Erased item of the namespace, in whatever state the page is. BAD_IMAGE; BAD_RECORD */
uint32_t nvs_purge_namespace(uint8_t *image, size_t image_length, uint8_t *record, size_t record_length,
                             uint8_t namespace_index);

#ifdef __cplusplus
}
#endif

#endif
