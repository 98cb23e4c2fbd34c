/* The calls of the port for C: crates/exports/out/libexports.a, which `rt lib` in crates/exports makes.
 *
 * Each gives document 01's number (0: accepted), and sets *place and *length: the place that the
 * number names, and how many bytes of the answer buffer are the answer. A refusal touches no byte
 * of the answer buffer. The work buffer, at least 4 times the sheets' bytes, is all 0 afterwards,
 * but untouched after 32. Nothing is allocated, and nothing is left to the caller to test.
 *
 * A pointer is never null, also where its length is 0, and no buffer overlaps anything else.
 *
 * A field of a sheet, whatever its type is, may have a dictionary number: bit 4 of its map stands, and behind its
 * name and metadata, before its type, come eight bytes, a signed number that is not 0, the lowest byte first. */
#ifndef SHEETS_H
#define SHEETS_H

#include <stddef.h>
#include <stdint.h>

#ifdef __cplusplus
extern "C" {
#endif

/* Types: one byte for each column, 1 where its type is nested. */
uint8_t sheets_is_nested(const uint8_t *sheet, size_t sheet_length,
                         uint8_t *work, size_t work_length,
                         uint8_t *answer, size_t answer_length,
                         size_t *place, size_t *length);

/* Types: one byte, 1 where the columns of two sheets are equal. Order flags and dictionary numbers do not count. */
uint8_t sheets_equal(const uint8_t *sheet, size_t sheet_length,
                     const uint8_t *other, size_t other_length,
                     uint8_t *work, size_t work_length,
                     uint8_t *answer, size_t answer_length,
                     size_t *place, size_t *length);

/* Types: one byte, 1 where the columns of two sheets are equal but for names, metadata, order flags, dictionary
 * numbers and the order of union children. */
uint8_t sheets_equals_datatype(const uint8_t *sheet, size_t sheet_length,
                               const uint8_t *other, size_t other_length,
                               uint8_t *work, size_t work_length,
                               uint8_t *answer, size_t answer_length,
                               size_t *place, size_t *length);

/* Schemas: one byte, 1 where the first sheet contains the second. Dictionary numbers do not count. */
uint8_t sheets_contains(const uint8_t *sheet, size_t sheet_length,
                        const uint8_t *other, size_t other_length,
                        uint8_t *work, size_t work_length,
                        uint8_t *answer, size_t answer_length,
                        size_t *place, size_t *length);

/* Unions: the ids given, of so many fields. */
uint8_t sheets_try_new(const uint8_t *ids, size_t ids_length, uint16_t count,
                       uint8_t *answer, size_t answer_length,
                       size_t *place, size_t *length);

/* Unions: the ids of so many fields, from 0 on. */
uint8_t sheets_try_from_fields(uint16_t count,
                               uint8_t *answer, size_t answer_length,
                               size_t *place, size_t *length);

/* The mode of a merge: what it does where a column is Null in one sheet and an ordered dictionary in another,
 * as when a log was begun with the chair parked. Everything else is the same in both modes.
 *
 * SHEETS_AS_THE_RUST, 0: the order flags differ, so the train is refused with 20.
 * SHEETS_PARKED_FIRST, 1 and every other value: a Null's order flag is not compared, and the column becomes the
 * ordered dictionary, nullable. So too for the children of structs, lists and large lists. Two dictionaries of
 * which one is ordered are still refused with 20.
 *
 * No value is refused. Use one mode for all merges of a table. */
#define SHEETS_AS_THE_RUST 0
#define SHEETS_PARKED_FIRST 1

/* The merge: one sheet out of a train, its sheets end to end. A clash has the sheet's number, from 0, for its
 * place. A field has the dictionary number of the first sheet that has the field, or none.
 *
 * An accepted answer may stand first in a later train of the same mode, in its sheets' place (document 02, Item 1):
 * while neither train has more than 256 sheets, the answer is the same, or the refusal's number is, and its place
 * counts the train given. */
uint8_t sheets_merge(const uint8_t *train, size_t train_length,
                     uint8_t *work, size_t work_length,
                     uint8_t *answer, size_t answer_length,
                     size_t *place, size_t *length, uint8_t mode);

/* Schemas: the position of the first column of a name, two bytes, the lower first. */
uint8_t sheets_index_of(const uint8_t *sheet, size_t sheet_length,
                        const uint8_t *name, size_t name_length,
                        uint8_t *work, size_t work_length,
                        uint8_t *answer, size_t answer_length,
                        size_t *place, size_t *length);

/* Schemas: the number of fields, then the offset of each field's map in the sheet, two bytes each. */
uint8_t sheets_flattened_fields(const uint8_t *sheet, size_t sheet_length,
                                uint8_t *work, size_t work_length,
                                uint8_t *answer, size_t answer_length,
                                size_t *place, size_t *length);

/* Schemas: the sheet of the columns that a list names, two bytes an index, the lower first. Repeats are allowed. */
uint8_t sheets_project(const uint8_t *sheet, size_t sheet_length,
                       const uint8_t *list, size_t list_length,
                       uint8_t *work, size_t work_length,
                       uint8_t *answer, size_t answer_length,
                       size_t *place, size_t *length);

/* Schemas: the same, and a repeated index is refused. */
uint8_t sheets_project_strict(const uint8_t *sheet, size_t sheet_length,
                              const uint8_t *list, size_t list_length,
                              uint8_t *work, size_t work_length,
                              uint8_t *answer, size_t answer_length,
                              size_t *place, size_t *length);

/* Schemas: the sheet with its structs taken apart down to a level (0: no limit), names joined by the
 * separator. Its columns have no metadata, no order flag and no dictionary number; what lies inside their types
 * stays. */
uint8_t sheets_normalize(const uint8_t *sheet, size_t sheet_length,
                         const uint8_t *separator, size_t separator_length, uint16_t max_level,
                         uint8_t *work, size_t work_length,
                         uint8_t *answer, size_t answer_length,
                         size_t *place, size_t *length);

/* The leaf filter: the sheet of the leaves whose mask byte is not 0. */
uint8_t sheets_filter(const uint8_t *sheet, size_t sheet_length,
                      const uint8_t *mask, size_t mask_length,
                      uint8_t *work, size_t work_length,
                      uint8_t *answer, size_t answer_length,
                      size_t *place, size_t *length);

#ifdef __cplusplus
}
#endif

#endif
