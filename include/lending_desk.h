/* The proved lending desk, for programs that link target/staticlib/libcapi.a (written by `tools/build library`).
 *
 * A book is LENDING_DESK_WORDS words that the program lends to each call; nothing else is kept. Any numbers, any lengths and any contents may be
 * handed over: a call that can't be served says why in `refusal` and changes neither book nor list. What each call replies and every word that it
 * leaves is fixed by a definition, and proved.
 *
 * What no call can test, and a program must see to: a pointer is not null, not even with length 0; what it points to is of at least the length
 * given, aligned for its type, and lent to one call at a time; book, kinds, operations and list don't overlap.
 *
 * A journal is bytes, the records of calls one behind the other; docs/JOURNAL.md has its format. What is read and
 * written of it needs no book.
 */
#ifndef LENDING_DESK_H
#define LENDING_DESK_H

#include <stddef.h>
#include <stdint.h>

#ifdef __cplusplus
extern "C" {
#endif

/* The version of book, calls and replies, for books and programs that outlive one version: 1 is the base's, and each
 * change request raises it. A macro, so that #if can ask for it. */
#define LENDING_DESK_VERSION 6

enum {
    LENDING_DESK_WORDS = 3937,          /* words of a book */
    LENDING_DESK_HANDOUTS = 64,         /* handouts 0 to 63 */
    LENDING_DESK_OBJECTS = 16,          /* objects 0 to 15, each of a kind */
    LENDING_DESK_LIST = 64,             /* bytes that the list lent to finish and cancel has at least */
    LENDING_DESK_BATCH = 16,            /* operations that a batch has at the most */
    LENDING_DESK_OPERATION_WORDS = 4,   /* words of each: object, operation, key or item, value */
    LENDING_DESK_RECORD_ARGUMENTS = 65, /* numbers that a record's call has at the most, which is a batch */
    LENDING_DESK_RECORD_BYTES = 488,    /* bytes that a record has at the most */
    LENDING_DESK_FRAME = 17408          /* bytes of stack that a call takes at the most: measured, and not proved */
};

/* Kinds of objects, for set up. */
enum {
    LENDING_DESK_NONE = 0,
    LENDING_DESK_STACK = 1,
    LENDING_DESK_SET = 2,
    LENDING_DESK_TABLE = 3
};

/* Operations. The answer is a code and a value. */
enum {
    LENDING_DESK_PUSH = 1,          /* item: 1 0 */
    LENDING_DESK_POP = 2,           /* 1 and the item removed, or 0 0 if empty */
    LENDING_DESK_TOP = 3,           /* the same without removing */
    LENDING_DESK_SET_INSERT = 4,    /* key: 1 0 */
    LENDING_DESK_SET_DELETE = 5,    /* key: 1 0 if it was there, else 0 0 */
    LENDING_DESK_SET_MEMBER = 6,    /* key: 1 0 if it is there, else 0 0 */
    LENDING_DESK_TABLE_INSERT = 7,  /* key, value: 1 0 if added, 0 0 and no change if the key was there */
    LENDING_DESK_TABLE_DELETE = 8,  /* key: 1 0 if it was there, else 0 0 */
    LENDING_DESK_TABLE_LOOKUP = 9,  /* key: 1 and the value, or 0 0 */
    LENDING_DESK_TABLE_SIZE = 10,   /* 1 and the number of rows */
    LENDING_DESK_TABLE_MODIFY = 11  /* key, value: 1 0 if replaced, 0 0 if absent */
};

/* Reply codes. They mean something only where `refusal` is 0. */
enum {
    LENDING_DESK_WAIT = 0,      /* entries of the handouts in `owners` force a wait; nothing was changed */
    LENDING_DESK_ANSWERED = 1,  /* `answer` and `value` are the answer; of a batch, `answers` are its answers */
    LENDING_DESK_FINISHED = 2,  /* it depends on others, and commits when they have ended */
    LENDING_DESK_COMMITTED = 3, /* it committed, the first in the list */
    LENDING_DESK_CIRCLE = 4,    /* it lay on a circle of dependency, and was cancelled */
    LENDING_DESK_CANCELLED = 5
};

/* Refusals: the first that applies, in the order of their numbers, but for 12, which comes after 5. */
enum {
    LENDING_DESK_ACCEPTED = 0,
    LENDING_DESK_BOOK_LENGTH = 1,     /* the book isn't LENDING_DESK_WORDS words long */
    LENDING_DESK_LIST_LENGTH = 2,     /* the list is shorter than LENDING_DESK_LIST */
    LENDING_DESK_BAD_KINDS = 3,       /* the kinds aren't LENDING_DESK_OBJECTS bytes, or one is above 3 */
    LENDING_DESK_UNSOUND = 4,         /* the book isn't sound; no call makes a sound one so */
    LENDING_DESK_HANDOUT_NUMBER = 5,  /* the handout's number is above 63 */
    LENDING_DESK_HANDOUT_LIVE = 6,    /* begin names a handout that is open or finished */
    LENDING_DESK_NOT_OPEN = 7,        /* the handout isn't open */
    LENDING_DESK_NO_OBJECT = 8,       /* the object is above 15 or of no kind */
    LENDING_DESK_WRONG_OPERATION = 9, /* the operation isn't one of the object's kind */
    LENDING_DESK_LOG_FULL = 10,       /* the log holds 256 entries, or would hold more with the batch */
    LENDING_DESK_NO_ROOM = 11,        /* rows plus pushes and inserts of the object, logged or before it, are at 64 */
    LENDING_DESK_BATCH_LENGTH = 12,   /* more than LENDING_DESK_BATCH operations, or a part of one */
    LENDING_DESK_BAD_RECORD = 13      /* of a journal: bytes that are no record, or a record that has no bytes */
};

/* Why bytes are no record. */
enum {
    LENDING_DESK_CUT = 1,        /* they end inside it */
    LENDING_DESK_BAD_LETTER = 2, /* no call has the letter */
    LENDING_DESK_BAD_CODE = 3,   /* no call of the letter gives the reply code */
    LENDING_DESK_BAD_OWNERS = 4, /* an owner is above 63, or not above the one before */
    LENDING_DESK_BAD_LIST = 5,   /* more than 64 owners, or handouts in a list */
    LENDING_DESK_BAD_BATCH = 6,  /* more than LENDING_DESK_BATCH operations */
    LENDING_DESK_LONG_FORM = 7,  /* a number in more groups than it needs */
    LENDING_DESK_BAD_WIDTH = 8   /* a number of more than 32 bits, or of more than five groups */
};

/* A field that a reply has no number for is 0. */

typedef struct {
    uint32_t refusal;
} lending_desk_accepted;

/* The owners of a wait are a set of handouts: handout h is in it where `owners >> h & 1` is 1, so h from 0 to 63 walks
 * it ascending. `count` is how many there are, at least one; the handout that asks is never among them. */
typedef struct {
    uint32_t refusal;
    uint32_t code;   /* wait or answered */
    uint64_t owners; /* of a wait: all whose entries force it, as 64 bits */
    uint32_t count;  /* of a wait: how many they are */
    uint32_t answer; /* the answer's code */
    uint32_t value;  /* the answer's value */
} lending_desk_operated;

/* An operation's answer. */
typedef struct {
    uint32_t code;
    uint32_t value;
} lending_desk_answer;

typedef struct {
    uint32_t refusal;
    uint32_t code;   /* wait or answered */
    uint64_t owners; /* of a wait: all whose entries force it for any of the operations, as above */
    uint32_t count;  /* of a wait: how many they are; answered: how many answers there are */
    lending_desk_answer answers[LENDING_DESK_BATCH]; /* in the order of the operations; those not used are 0 0 */
} lending_desk_batched;

typedef struct {
    uint32_t refusal;
    uint32_t code;  /* finished, committed, circle or cancelled */
    uint32_t count; /* how many handouts committed: they stand at the front of the list */
} lending_desk_ended;

typedef struct {
    uint32_t refusal;
    uint32_t start; /* the word of the book at which the object's rows start */
    uint32_t rows;  /* how many there are, two words each */
} lending_desk_part;

/* A call and its reply, as a journal has them. What the letter and the reply code don't need isn't looked at when a
 * record is written, and may be any number in one that was read. The arguments are, for S, 16 kinds; for I, handout,
 * object, operation, key or item, value; for G, the handout, then the last four of these for each operation; for B, F
 * and C, the handout. */
typedef struct {
    uint8_t letter;       /* the call's in scripts */
    size_t operations;    /* of a batch: how many there are */
    uint32_t arguments[LENDING_DESK_RECORD_ARGUMENTS];
    uint32_t code;        /* the reply code, which S and B don't have */
    uint64_t owners;      /* of a wait: as above */
    size_t listed;        /* of finish and cancel: how many handouts committed, at most 64 */
    uint32_t numbers[64]; /* these, in order; answered: code and value of the answer, of a batch those of each */
} lending_desk_record;

typedef struct {
    uint32_t refusal;
    size_t count;                             /* how many bytes the record has; the others are 0 */
    uint8_t bytes[LENDING_DESK_RECORD_BYTES];
} lending_desk_written;

typedef struct {
    uint32_t refusal;
    uint32_t found; /* 1 where there is a record, 0 at the end of the bytes */
    uint32_t cause; /* of a refusal: why */
    size_t place;   /* of a record: that behind it; of a refusal: that of the letter or number that can't be read */
    lending_desk_record record; /* any numbers where there is none */
} lending_desk_reading;

typedef struct {
    uint32_t refusal;
    uint32_t cause; /* of a refusal: why */
    size_t place;   /* of a refusal: that of the letter or number that can't be read */
    size_t records; /* how many there are */
} lending_desk_counted;

/* Writes an empty book of these kinds over any contents. Refusals: 1, 3. */
lending_desk_accepted lending_desk_set_up(uint32_t *book, size_t words, const uint8_t *kinds, size_t count);

/* Opens a handout, 0 to 63. Refusals: 1, 4, 5, 6. */
lending_desk_accepted lending_desk_begin(uint32_t *book, size_t words, uint32_t handout);

/* Answers an operation of an open handout and enters it in the log; or says whom it waits for, and changes nothing. An argument that the operation
 * doesn't use may be any number. Refusals: 1, 4, 5, 7, 8, 9, 10, 11. */
lending_desk_operated lending_desk_operate(uint32_t *book, size_t words, uint32_t handout, uint32_t object, uint32_t operation, uint32_t key,
                                           uint32_t value);

/* Answers operations of an open handout in order, each seeing those before it, and enters them in the log; or, where
 * any of them must wait, says for whom and changes nothing. `operations` has LENDING_DESK_OPERATION_WORDS words for
 * each, `length` words in all; a batch of none is answered with no answers. The first operation with an 8 or 9 of its
 * own gives the number. Refusals: 1, 4, 5, 12, 7, 8, 9, 10, 11. */
lending_desk_batched lending_desk_batch(uint32_t *book, size_t words, uint32_t handout, const uint32_t *operations,
                                        size_t length);

/* Finishes an open handout. Those that commit by it go to the front of the list in order of commitment, itself first where it does; the rest of the
 * list keeps its bytes. Refusals: 1, 2, 4, 5, 7. */
lending_desk_ended lending_desk_finish(uint32_t *book, size_t words, uint32_t handout, uint8_t *list, size_t length);

/* Cancels an open handout: what it did is as if it had not been. Those that commit by it go to the list, as of finish. Refusals: 1, 2, 4, 5, 7. */
lending_desk_ended lending_desk_cancel(uint32_t *book, size_t words, uint32_t handout, uint8_t *list, size_t length);

/* Where the committed rows of an object stand in the book: a stack's are item and 0, bottom first; a set's key and 0, and a table's key and value,
 * by ascending keys. Refusals: 1, 4, 8. */
lending_desk_part lending_desk_contents(const uint32_t *book, size_t words, uint32_t object);

/* The bytes of a record, or none for one that couldn't be read back. Refusals: 13. */
lending_desk_written lending_desk_write_record(lending_desk_record record);

/* The record that starts at a place of any bytes, the end for a place at their end or behind it. A journal is gone
 * through from place 0, each record's place being the next one's. Refusals: 13. */
lending_desk_reading lending_desk_next_record(const uint8_t *bytes, size_t length, size_t at);

/* How many records any bytes are. Refusals: 13. */
lending_desk_counted lending_desk_count_records(const uint8_t *bytes, size_t length);

#ifdef __cplusplus
}
#endif

#endif
