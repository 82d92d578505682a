/* Muigratu from C: joins and reshapes of tables. docs/LIBRARY.md says what is proved of the calls, and what isn't.
 *
 * A call of a request puts the text of its answer at the front of `room`. Both are those of the JSON program
 * (docs/REQUESTS.md). Where the answer is longer than the room, the room stays as it was, and `length` tells what is
 * needed. No pointer is kept, and nothing is to be freed.
 *
 * `muigratu_rows_i64` joins two columns of numbers. Where `left_there_len` is 0, all left numbers are there; else there
 * are as many marks as numbers, and a number whose mark is 0 is Null. So of the right ones. Nulls match each other where
 * `nulls_equal` isn't 0. `length` is the number of pairs. Their left row numbers go to the front of `left_rows` and their
 * right ones to that of `right_rows`, MUIGRATU_NO_ROW where a pair has no row of the side: by left rows and then by right
 * rows, and those of a right join by right rows and then by left rows. A room that is shorter stays as it was: a caller
 * that wants no right rows gives room for none.
 *
 * A caller owes, and nothing checks:
 *   - each pointer to const points to as many elements as the length behind it says, which nothing writes during the
 *     call; each other one to as many that nothing else reads or writes during the call. None is null, even for 0
 *     elements, and each is aligned for its type;
 *   - what is written doesn't overlap with anything else, and nothing has 2^63 bytes or more;
 *   - malloc, realloc and free are one allocator, and align as glibc's do;
 *   - 1 MiB of stack; no call from a signal handler, or in the forked child of a process with threads;
 *   - `muigratu_abi()` is MUIGRATU_ABI.
 * Calls from several threads at once are fine: no call shares memory with another.
 */
#ifndef MUIGRATU_H
#define MUIGRATU_H
#include <stddef.h>
#include <stdint.h>
#ifdef __cplusplus
extern "C" {
#endif

#define MUIGRATU_ABI 2

/* The row number of a pair that has no row of a side. */
#define MUIGRATU_NO_ROW UINT32_MAX

enum {
    MUIGRATU_DONE = 0,          /* the answer is a table, or the row numbers */
    MUIGRATU_REFUSED = 1,       /* the answer tells why the request is refused */
    MUIGRATU_BAD_REQUEST = 3,   /* the answer tells why the bytes are no request; of rows: `how` is no kind, or there are
                                   neither no marks nor as many as numbers. `length` is 0, and the rooms are as they were */
    MUIGRATU_OUT_OF_MEMORY = 6, /* there is no answer: `length` is 0, and the room is as it was */
    MUIGRATU_TOO_MANY_ROWS = 8  /* of rows: a side has more than 4294967294. The same */
};

/* The kinds of a join of rows. */
enum {
    MUIGRATU_INNER = 0,
    MUIGRATU_LEFT = 1,
    MUIGRATU_RIGHT = 2,
    MUIGRATU_FULL = 3,
    MUIGRATU_SEMI = 4,
    MUIGRATU_ANTI = 5
};

struct muigratu_ended {
    uint32_t status;
    size_t length;
};

struct muigratu_ended muigratu_join(const unsigned char *request, size_t request_len, unsigned char *room, size_t room_len);
struct muigratu_ended muigratu_unpivot(const unsigned char *request, size_t request_len, unsigned char *room, size_t room_len);
struct muigratu_ended muigratu_pivot(const unsigned char *request, size_t request_len, unsigned char *room, size_t room_len);
struct muigratu_ended muigratu_dummies(const unsigned char *request, size_t request_len, unsigned char *room, size_t room_len);
struct muigratu_ended muigratu_rows_i64(const int64_t *left, size_t left_len, const unsigned char *left_there, size_t left_there_len, const int64_t *right, size_t right_len, const unsigned char *right_there, size_t right_there_len, uint32_t how, uint32_t nulls_equal, uint32_t *left_rows, size_t left_rows_len, uint32_t *right_rows, size_t right_rows_len);
uint32_t muigratu_abi(void);

#ifdef __cplusplus
}
#endif
#endif
