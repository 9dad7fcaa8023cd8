/* A journal of some calls: each call's record is written, then all are read back and printed, as in journal.txt.
 *
 *     tools/build library
 *     cc -std=c99 -Wall -Wextra -pedantic -Iinclude examples/journal.c target/staticlib/libcapi.a -o journal
 *     ./journal
 */
#include <inttypes.h>
#include <stdio.h>
#include <stdlib.h>
#include <string.h>

#include "lending_desk.h"

static uint32_t book[LENDING_DESK_WORDS];
static uint8_t list[LENDING_DESK_LIST];
static uint8_t journal[4 * LENDING_DESK_RECORD_BYTES];
static size_t length;

/* Writes a record behind those that are there. */
static void keep(lending_desk_record record) {
    const lending_desk_written written = lending_desk_write_record(record);
    memcpy(journal + length, written.bytes, written.count);
    length += written.count;
}

static void serve(void) {
    const uint8_t kinds[LENDING_DESK_OBJECTS] = {LENDING_DESK_STACK};
    lending_desk_set_up(book, LENDING_DESK_WORDS, kinds, LENDING_DESK_OBJECTS);
    keep((lending_desk_record){.letter = 'S', .arguments = {LENDING_DESK_STACK}});

    lending_desk_begin(book, LENDING_DESK_WORDS, 7);
    keep((lending_desk_record){.letter = 'B', .arguments = {7}});

    const lending_desk_operated pushed =
        lending_desk_operate(book, LENDING_DESK_WORDS, 7, 0, LENDING_DESK_PUSH, 300, 0);
    keep((lending_desk_record){.letter = 'I', .arguments = {7, 0, LENDING_DESK_PUSH, 300, 0}, .code = pushed.code,
                               .owners = pushed.owners, .numbers = {pushed.answer, pushed.value}});

    const lending_desk_ended ended = lending_desk_finish(book, LENDING_DESK_WORDS, 7, list, LENDING_DESK_LIST);
    lending_desk_record finish = {.letter = 'F', .arguments = {7}, .code = ended.code, .listed = ended.count};
    for (uint32_t i = 0; i < ended.count; i++) {
        finish.numbers[i] = list[i];
    }
    keep(finish);
}

/* Prints a record's bytes in a column of their own; then the call; then the reply code, and what was replied. */
static void print(const uint8_t *bytes, size_t count, const lending_desk_record *record) {
    int width = 0;
    for (size_t i = 0; i < count; i++) {
        width += printf("%02x ", (unsigned)bytes[i]);
    }
    width += printf("%*s%c", 54 - width, "", record->letter);
    const int arguments = record->letter == 'S' ? LENDING_DESK_OBJECTS : record->letter == 'I' ? 5 : 1;
    for (int i = 0; i < arguments; i++) {
        width += printf(" %" PRIu32, record->arguments[i]);
    }
    if (record->letter == 'I' || record->letter == 'F') {
        const size_t numbers = record->code == LENDING_DESK_ANSWERED ? 2 : record->listed;
        printf("%*s%" PRIu32 ":", 70 - width, "", record->code);
        for (size_t i = 0; i < numbers; i++) {
            printf(" %" PRIu32, record->numbers[i]);
        }
    }
    printf("\n");
}

int main(void) {
    serve();
    size_t place = 0;
    lending_desk_reading reading = lending_desk_next_record(journal, length, place);
    while (reading.found) {
        print(journal + place, reading.place - place, &reading.record);
        place = reading.place;
        reading = lending_desk_next_record(journal, length, place);
    }
    if (reading.refusal != LENDING_DESK_ACCEPTED) {
        fprintf(stderr, "journal: no record at byte %zu\n", reading.place);
        return EXIT_FAILURE;
    }
    return EXIT_SUCCESS;
}
