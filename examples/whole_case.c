/* Two handouts on one stack: the paper's whole case. Each call is printed with its reply, as in whole_case.txt.
 *
 *     tools/build library
 *     cc -std=c99 -Wall -Wextra -pedantic -Iinclude examples/whole_case.c target/staticlib/libcapi.a -o whole_case
 *     ./whole_case
 */
#include <inttypes.h>
#include <stdio.h>
#include <stdlib.h>

#include "lending_desk.h"

static uint32_t book[LENDING_DESK_WORDS];
static uint8_t list[LENDING_DESK_LIST];

/* Prints a call in a column of its own; the reply follows. */
static void print_call(char letter, size_t count, const uint32_t *numbers) {
    int width = printf("%c", letter);
    for (size_t i = 0; i < count; i++) {
        width += printf(" %" PRIu32, numbers[i]);
    }
    printf("%*s", width < 16 ? 16 - width : 1, "");
}

/* Whether a call was refused; prints why. */
static int refused(uint32_t refusal) {
    if (refusal == LENDING_DESK_ACCEPTED) {
        return 0;
    }
    printf("refused %" PRIu32 "\n", refusal);
    return 1;
}

static void print_accepted(lending_desk_accepted reply) {
    if (!refused(reply.refusal)) {
        printf("ok\n");
    }
}

/* How many handouts an operation waits for, then these, ascending. */
static void print_wait(uint64_t owners, uint32_t count) {
    printf("wait %" PRIu32, count);
    for (int handout = 0; handout < LENDING_DESK_HANDOUTS; handout++) {
        if (owners >> handout & 1) {
            printf(" %d", handout);
        }
    }
    printf("\n");
}

static void print_operated(lending_desk_operated reply) {
    if (refused(reply.refusal)) {
        return;
    }
    if (reply.code == LENDING_DESK_WAIT) {
        print_wait(reply.owners, reply.count);
    } else {
        printf("answer %" PRIu32 " %" PRIu32 "\n", reply.answer, reply.value);
    }
}

/* The handouts that committed stand at the front of the list, in order of commitment. */
static void print_ended(lending_desk_ended reply) {
    static const char *const words[] = {
        [LENDING_DESK_FINISHED] = "finished",
        [LENDING_DESK_COMMITTED] = "committed",
        [LENDING_DESK_CIRCLE] = "circle",
        [LENDING_DESK_CANCELLED] = "cancelled",
    };
    if (refused(reply.refusal)) {
        return;
    }
    printf("%s", words[reply.code]);
    for (uint32_t i = 0; i < reply.count; i++) {
        printf(" %u", list[i]);
    }
    printf("\n");
}

static void begin(uint32_t handout) {
    print_call('B', 1, &handout);
    print_accepted(lending_desk_begin(book, LENDING_DESK_WORDS, handout));
}

static void operate(uint32_t handout, uint32_t object, uint32_t operation, uint32_t key, uint32_t value) {
    print_call('I', 5, (const uint32_t[]){handout, object, operation, key, value});
    print_operated(lending_desk_operate(book, LENDING_DESK_WORDS, handout, object, operation, key, value));
}

static void finish(uint32_t handout) {
    print_call('F', 1, &handout);
    print_ended(lending_desk_finish(book, LENDING_DESK_WORDS, handout, list, LENDING_DESK_LIST));
}

static void cancel(uint32_t handout) {
    print_call('C', 1, &handout);
    print_ended(lending_desk_cancel(book, LENDING_DESK_WORDS, handout, list, LENDING_DESK_LIST));
}

/* Whether the committed rows of a stack are these items, bottom first. */
static int stack_holds(uint32_t object, const uint32_t *items, uint32_t count) {
    const lending_desk_part part = lending_desk_contents(book, LENDING_DESK_WORDS, object);
    if (part.refusal != LENDING_DESK_ACCEPTED || part.rows != count) {
        return 0;
    }
    for (uint32_t row = 0; row < count; row++) {
        if (book[part.start + 2 * row] != items[row]) {
            return 0;
        }
    }
    return 1;
}

int main(void) {
    /* Objects that aren't named have no kind. */
    const uint8_t kinds[LENDING_DESK_OBJECTS] = {LENDING_DESK_STACK, LENDING_DESK_SET, LENDING_DESK_TABLE};

    print_call('S', 3, (const uint32_t[]){kinds[0], kinds[1], kinds[2]});
    print_accepted(lending_desk_set_up(book, LENDING_DESK_WORDS, kinds, LENDING_DESK_OBJECTS));

    begin(0);
    begin(1);
    operate(0, 0, LENDING_DESK_PUSH, 7, 0);
    operate(1, 0, LENDING_DESK_PUSH, 9, 0);
    operate(1, 0, LENDING_DESK_TOP, 0, 0);
    finish(1);
    finish(0);
    begin(2);
    operate(2, 0, LENDING_DESK_POP, 0, 0);
    cancel(2);

    /* The pop was cancelled: the stack is as the two that committed left it. */
    if (!stack_holds(0, (const uint32_t[]){7, 9}, 2)) {
        fprintf(stderr, "whole_case: the stack should hold 7 and 9\n");
        return EXIT_FAILURE;
    }
    return EXIT_SUCCESS;
}
