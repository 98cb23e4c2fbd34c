/* The desk's calls from C: every call of include/sheets.h with a known answer, accepted and refused.
 *
 * Each check compares the number, the place, the length, every byte of the answer buffer, and every byte of the
 * work buffer, those that were not lent among them. It prints a line; the last line is 'N passed, M failed', and
 * the status is 0 only where M is 0. */
#include "sheets.h"

#include <stdio.h>
#include <string.h>

enum { WORK = 256, ANSWER = 64, BEFORE = 0xAA };

static uint8_t work[WORK], answer[ANSWER];
static size_t place, length;
static int passed, failed;

/* What a call is given at its end: so many bytes of the work buffer, so many of the answer buffer, both numbers. */
#define LENT(work_length, answer_length) lend(), (work_length), answer, (answer_length), &place, &length
/* The same for a call without sheets. */
#define ANSWERS(answer_length) lend_answer(), (answer_length), &place, &length
#define BYTES(array) (array), sizeof(array)

/* The buffers and numbers as they are before every call: nothing in them is what a call writes. */
static uint8_t *lend(void) {
    memset(work, BEFORE, sizeof work);
    memset(answer, BEFORE, sizeof answer);
    place = length = (size_t)-1;
    return work;
}

static uint8_t *lend_answer(void) {
    (void)lend();
    return answer;
}

static int all(const uint8_t *bytes, size_t count, uint8_t value) {
    size_t i;
    for (i = 0; i < count; i++) {
        if (bytes[i] != value) {
            return 0;
        }
    }
    return 1;
}

static void settle(const char *name, int holds) {
    printf("%s: %s\n", name, holds ? "ok" : "FAILED");
    if (holds) {
        passed++;
    } else {
        failed++;
    }
}

/* The first `cleared` bytes of the work buffer are 0 now, and those behind them as before. */
static int work_is(size_t cleared) {
    return all(work, cleared, 0) && all(work + cleared, sizeof work - cleared, BEFORE);
}

/* The call was accepted and answered these bytes. */
static void accepted(const char *name, uint8_t number, size_t cleared, const uint8_t *wanted, size_t wanted_length) {
    int numbers = number == 0 && place == 0 && length == wanted_length;
    int bytes = memcmp(answer, wanted, wanted_length) == 0
        && all(answer + wanted_length, sizeof answer - wanted_length, BEFORE);
    settle(name, numbers && bytes && work_is(cleared));
}

/* The call was refused by this number at this place. */
static void refused(const char *name, uint8_t number, size_t cleared, uint8_t wanted, size_t wanted_place) {
    int numbers = number == wanted && place == wanted_place && length == 0;
    settle(name, numbers && all(answer, sizeof answer, BEFORE) && work_is(cleared));
}

/* v:Int32; the same, nullable; w:Int32. */
static const uint8_t plain[] = {2, 1, 0, 4, 1, 0, 'v', 4};
static const uint8_t nullable[] = {2, 1, 0, 5, 1, 0, 'v', 4};
static const uint8_t renamed[] = {2, 1, 0, 4, 1, 0, 'w', 4};
/* v:Int32, and a Struct{} without a name. */
static const uint8_t two_columns[] = {2, 2, 0, 4, 1, 0, 'v', 4, 0, 32, 0, 0};
static const uint8_t yes[] = {1}, no[] = {0};

static void types(void) {
    static const uint8_t nested[] = {0, 1};
    accepted("is_nested: a plain column and a struct",
             sheets_is_nested(BYTES(two_columns), LENT(48, 3)), 48, BYTES(nested));
    refused("is_nested: a sheet cut short",
            sheets_is_nested(plain, 7, LENT(28, 1)), 28, 1, 7);
    refused("is_nested: a work buffer one byte short",
            sheets_is_nested(BYTES(plain), LENT(31, 1)), 0, 32, 0);
    refused("is_nested: an answer buffer one byte short",
            sheets_is_nested(BYTES(two_columns), LENT(48, 1)), 48, 31, 0);
    accepted("equal: the same columns",
             sheets_equal(BYTES(plain), BYTES(plain), LENT(64, 1)), 64, BYTES(yes));
    accepted("equal: another name",
             sheets_equal(BYTES(plain), BYTES(renamed), LENT(64, 1)), 64, BYTES(no));
    refused("equal: a place in the second sheet counts on from the first",
            sheets_equal(BYTES(plain), plain, 7, LENT(60, 1)), 60, 1, 15);
    accepted("equals_datatype: another name",
             sheets_equals_datatype(BYTES(plain), BYTES(renamed), LENT(64, 1)), 64, BYTES(yes));
    accepted("equals_datatype: nullable on one side",
             sheets_equals_datatype(BYTES(plain), BYTES(nullable), LENT(64, 1)), 64, BYTES(no));
    accepted("contains: nullable contains not nullable",
             sheets_contains(BYTES(nullable), BYTES(plain), LENT(64, 1)), 64, BYTES(yes));
    accepted("contains: not the reverse",
             sheets_contains(BYTES(plain), BYTES(nullable), LENT(64, 1)), 64, BYTES(no));
}

static void unions(void) {
    static const uint8_t ids[] = {9, 5}, above[] = {9, 128}, from_0[] = {0, 1, 2};
    accepted("try_new: two ids of two fields", sheets_try_new(BYTES(ids), 2, ANSWERS(2)), 0, BYTES(ids));
    refused("try_new: id 128", sheets_try_new(BYTES(above), 2, ANSWERS(2)), 0, 6, 1);
    refused("try_new: more fields than ids", sheets_try_new(BYTES(ids), 65535, ANSWERS(2)), 0, 14, 0);
    accepted("try_from_fields: 3 fields", sheets_try_from_fields(3, ANSWERS(3)), 0, BYTES(from_0));
    refused("try_from_fields: 129 fields", sheets_try_from_fields(129, ANSWERS(ANSWER)), 0, 16, 0);
}

static void schemas(void) {
    static const uint8_t name[] = {'v'}, other_name[] = {'x'};
    static const uint8_t at_0[] = {0, 0}, at_1[] = {1, 0}, fields[] = {2, 0, 3, 0, 8, 0};
    static const uint8_t list[] = {0, 0, 0, 0};
    static const uint8_t twice[] = {2, 2, 0, 4, 1, 0, 'v', 4, 4, 1, 0, 'v', 4};
    accepted("index_of: the first column",
             sheets_index_of(BYTES(two_columns), BYTES(name), LENT(48, 2)), 48, BYTES(at_0));
    accepted("index_of: the column without a name",
             sheets_index_of(BYTES(two_columns), name, 0, LENT(48, 2)), 48, BYTES(at_1));
    refused("index_of: no column of that name",
            sheets_index_of(BYTES(two_columns), BYTES(other_name), LENT(48, 2)), 48, 13, 0);
    accepted("flattened_fields: two fields",
             sheets_flattened_fields(BYTES(two_columns), LENT(48, 6)), 48, BYTES(fields));
    accepted("project: P10, one column twice",
             sheets_project(BYTES(plain), BYTES(list), LENT(32, 13)), 32, BYTES(twice));
    refused("project: a list of odd length",
            sheets_project(BYTES(plain), list, 3, LENT(32, 13)), 32, 17, 0);
    accepted("project_strict: one column once",
             sheets_project_strict(BYTES(plain), list, 2, LENT(32, 13)), 32, BYTES(plain));
    refused("project_strict: P10, one column twice",
            sheets_project_strict(BYTES(plain), BYTES(list), LENT(32, 13)), 32, 11, 1);
}

static void shapes(void) {
    /* P9: s:Struct{a:Int32, e:Struct{}} */
    static const uint8_t nested[] = {2, 1, 0, 4, 1, 0, 's', 32, 2, 0, 4, 1, 0, 'a', 4, 4, 1, 0, 'e', 32, 0, 0};
    static const uint8_t whole[] = {2, 1, 0, 4, 3, 0, 's', '.', 'a', 4};
    static const uint8_t once[] = {2, 2, 0, 4, 3, 0, 's', '.', 'a', 4, 4, 3, 0, 's', '.', 'e', 32, 0, 0};
    static const uint8_t dot[] = {'.'}, not_text[] = {0xFF}, keep[] = {1, 1};
    accepted("normalize: P9, no limit",
             sheets_normalize(BYTES(nested), BYTES(dot), 0, LENT(88, ANSWER)), 88, BYTES(whole));
    accepted("normalize: P9, level 1",
             sheets_normalize(BYTES(nested), BYTES(dot), 1, LENT(88, ANSWER)), 88, BYTES(once));
    refused("normalize: a separator that is not UTF-8",
            sheets_normalize(BYTES(nested), BYTES(not_text), 0, LENT(88, ANSWER)), 88, 18, 0);
    accepted("filter: the one leaf kept",
             sheets_filter(BYTES(two_columns), keep, 1, LENT(48, 8)), 48, BYTES(plain));
    refused("filter: a mask that is too long",
            sheets_filter(BYTES(two_columns), BYTES(keep), LENT(48, 8)), 48, 12, 0);
}

static void merges(void) {
    static const uint8_t parked_then_driven[] = {2, 1, 0, 4, 1, 0, 'v', 0, 2, 1, 0, 4, 1, 0, 'v', 4};
    static const uint8_t parked_then_ordered[] = {2, 1, 0, 4, 1, 0, 'v', 0, 2, 1, 0, 6, 1, 0, 'v', 34, 2, 24};
    static const uint8_t ordered_then_plain[] = {2, 1, 0, 6, 1, 0, 'v', 34, 2, 24, 2, 1, 0, 4, 1, 0, 'v', 4};
    static const uint8_t nullable_ordered[] = {2, 1, 0, 7, 1, 0, 'v', 34, 2, 24};
    static const uint8_t empty[] = {0};
    accepted("merge: P1, no sheets",
             sheets_merge(empty, 0, LENT(0, 1), SHEETS_AS_THE_RUST), 0, BYTES(empty));
    accepted("merge: P2, the parked log alone",
             sheets_merge(parked_then_driven, 8, LENT(32, 8), SHEETS_AS_THE_RUST), 32, parked_then_driven, 8);
    accepted("merge: P3, the parked log comes first",
             sheets_merge(BYTES(parked_then_driven), LENT(64, 8), SHEETS_AS_THE_RUST), 64, BYTES(nullable));
    accepted("merge, parked log first: P3 is the same",
             sheets_merge(BYTES(parked_then_driven), LENT(64, 8), SHEETS_PARKED_FIRST), 64, BYTES(nullable));
    refused("merge: P5, then an ordered dictionary",
            sheets_merge(BYTES(parked_then_ordered), LENT(72, ANSWER), SHEETS_AS_THE_RUST), 72, 20, 1);
    accepted("merge, parked log first: P5 gives a nullable ordered dictionary",
             sheets_merge(BYTES(parked_then_ordered), LENT(72, 10), SHEETS_PARKED_FIRST), 72, BYTES(nullable_ordered));
    accepted("merge, mode 255: it is parked log first",
             sheets_merge(BYTES(parked_then_ordered), LENT(72, 10), 255), 72, BYTES(nullable_ordered));
    refused("merge, parked log first: an ordered dictionary, then another type",
            sheets_merge(BYTES(ordered_then_plain), LENT(72, ANSWER), SHEETS_PARKED_FIRST), 72, 20, 1);
    refused("merge: an answer buffer one byte short",
            sheets_merge(BYTES(parked_then_driven), LENT(64, 7), SHEETS_AS_THE_RUST), 64, 31, 0);
    refused("merge: a work buffer one byte short",
            sheets_merge(BYTES(parked_then_driven), LENT(63, 8), SHEETS_AS_THE_RUST), 0, 32, 0);
}

/* A saved answer, first in a later train, stands for the sheets that it was merged from: v:Null and v:Int32, then
 * v:Int32 and w:Utf8. */
static void saved_answers(void) {
    static const uint8_t logs[] = {2, 1, 0, 4, 1, 0, 'v', 0, 2, 1, 0, 4, 1, 0, 'v', 4,
                                   2, 2, 0, 4, 1, 0, 'v', 4, 4, 1, 0, 'w', 24};
    static const uint8_t merged[] = {2, 2, 0, 5, 1, 0, 'v', 4, 4, 1, 0, 'w', 24};
    enum { FIRST_TWO = 16, SAVED = 8, THIRD = sizeof logs - FIRST_TWO };
    uint8_t train[SAVED + THIRD];
    accepted("merge: three logs at once",
             sheets_merge(BYTES(logs), LENT(116, ANSWER), SHEETS_AS_THE_RUST), 116, BYTES(merged));
    accepted("merge: the first two of them, saved",
             sheets_merge(logs, FIRST_TWO, LENT(64, SAVED), SHEETS_AS_THE_RUST), 64, BYTES(nullable));
    memcpy(train, answer, SAVED);
    memcpy(train + SAVED, logs + FIRST_TWO, THIRD);
    accepted("merge: the third onto the saved answer gives the bytes of all at once",
             sheets_merge(BYTES(train), LENT(84, ANSWER), SHEETS_AS_THE_RUST), 84, BYTES(merged));
    train[SAVED + 7] = 2;
    refused("merge: a clash with the saved answer, its place counting the train given",
            sheets_merge(BYTES(train), LENT(84, ANSWER), SHEETS_AS_THE_RUST), 84, 22, 1);
}

/* Dictionary numbers, on v:Int32: 1, -1, a stored 0, and 1 under a map with an unknown bit. */
static void dictionary_numbers(void) {
    static const uint8_t one[] = {2, 1, 0, 20, 1, 0, 'v', 1, 0, 0, 0, 0, 0, 0, 0, 4};
    static const uint8_t minus[] = {2, 1, 0, 20, 1, 0, 'v', 255, 255, 255, 255, 255, 255, 255, 255, 4};
    static const uint8_t stored_0[] = {2, 1, 0, 20, 1, 0, 'v', 0, 0, 0, 0, 0, 0, 0, 0, 4};
    static const uint8_t unknown[] = {2, 1, 0, 52, 1, 0, 'v', 1, 0, 0, 0, 0, 0, 0, 0, 4};
    static const uint8_t taken[] = {2, 1, 0, 21, 1, 0, 'v', 1, 0, 0, 0, 0, 0, 0, 0, 4};
    static const uint8_t list[] = {0, 0}, dot[] = {'.'};
    uint8_t train[sizeof one + sizeof minus];
    memcpy(train, one, sizeof one);
    memcpy(train + sizeof one, minus, sizeof minus);
    accepted("merge: the first column's dictionary number stays",
             sheets_merge(BYTES(train), LENT(128, 16), SHEETS_AS_THE_RUST), 128, BYTES(one));
    train[sizeof one - 1] = 0;
    accepted("merge: a Null that takes a type keeps its own",
             sheets_merge(BYTES(train), LENT(128, 16), SHEETS_PARKED_FIRST), 128, BYTES(taken));
    memcpy(train, plain, sizeof plain);
    memcpy(train + sizeof plain, minus, sizeof minus);
    accepted("merge: a first column without one stays without",
             sheets_merge(train, sizeof plain + sizeof minus, LENT(96, 16), SHEETS_AS_THE_RUST), 96, BYTES(plain));
    accepted("equal: another dictionary number",
             sheets_equal(BYTES(one), BYTES(minus), LENT(128, 1)), 128, BYTES(yes));
    accepted("equals_datatype: one without a dictionary number",
             sheets_equals_datatype(BYTES(plain), BYTES(minus), LENT(96, 1)), 96, BYTES(yes));
    accepted("contains: one with a dictionary number",
             sheets_contains(BYTES(plain), BYTES(minus), LENT(96, 1)), 96, BYTES(yes));
    accepted("project_strict: the dictionary number is kept",
             sheets_project_strict(BYTES(minus), BYTES(list), LENT(64, 16)), 64, BYTES(minus));
    accepted("filter: the dictionary number is kept",
             sheets_filter(BYTES(minus), yes, 1, LENT(64, 16)), 64, BYTES(minus));
    accepted("normalize: the dictionary number is dropped",
             sheets_normalize(BYTES(minus), BYTES(dot), 0, LENT(64, 16)), 64, BYTES(plain));
    refused("is_nested: a stored dictionary number of 0, at its first byte",
            sheets_is_nested(BYTES(stored_0), LENT(64, 1)), 64, 2, 7);
    refused("is_nested: a dictionary number cut short",
            sheets_is_nested(one, 14, LENT(56, 1)), 56, 1, 7);
    refused("is_nested: bit 5 of a field's map is not known",
            sheets_is_nested(BYTES(unknown), LENT(64, 1)), 64, 2, 3);
}

int main(void) {
    types();
    unions();
    schemas();
    shapes();
    merges();
    saved_answers();
    dictionary_numbers();
    printf("%d passed, %d failed\n", passed, failed);
    return failed == 0 ? 0 : 1;
}
