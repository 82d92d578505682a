/* rows HOW NULLS_EQUAL LEFT RIGHT: the pairs of a join of two lists of numbers, as `rows 3 0 1,-,2 2,2,7`, where - is Null.
 * HOW is a number of muigratu.h. A line for each pair: its left and its right row, - where there is none. */
#include "muigratu.h"
#include <stdio.h>
#include <stdlib.h>
#include <string.h>

struct column {
    int64_t *numbers;
    unsigned char *there;
    size_t length;
};

/* The numbers between commas; none of an empty text. Without numbers where memory is wanting. */
static struct column column_of(char *text) {
    size_t most = strlen(text) / 2 + 1;
    struct column column = {malloc(most * sizeof *column.numbers), malloc(most), 0};
    for (char *item = strtok(text, ","); column.numbers && column.there && item; item = strtok(NULL, ",")) {
        column.there[column.length] = strcmp(item, "-") != 0;
        column.numbers[column.length] = strtoll(item, NULL, 10);
        column.length++;
    }
    return column;
}

static void print_row(uint32_t row, char end) {
    if (row == MUIGRATU_NO_ROW)
        printf("-%c", end);
    else
        printf("%lu%c", (unsigned long)row, end);
}

int main(int argc, char **argv) {
    if (argc != 5 || muigratu_abi() != MUIGRATU_ABI) return 2;
    uint32_t how = (uint32_t)strtoul(argv[1], NULL, 10), nulls_equal = (uint32_t)strtoul(argv[2], NULL, 10);
    struct column left = column_of(argv[3]), right = column_of(argv[4]);
    /* Too little room for most answers on purpose: the second call has as much as the first one tells. */
    size_t room = 1;
    uint32_t *left_rows = malloc(room * sizeof *left_rows), *right_rows = malloc(room * sizeof *right_rows);
    struct muigratu_ended ended = {MUIGRATU_OUT_OF_MEMORY, 0};
    while (left.numbers && left.there && right.numbers && right.there && left_rows && right_rows) {
        ended = muigratu_rows_i64(left.numbers, left.length, left.there, left.length, right.numbers, right.length, right.there,
                                  right.length, how, nulls_equal, left_rows, room, right_rows, room);
        if (ended.length <= room) break;
        room = ended.length;
        free(left_rows);
        free(right_rows);
        left_rows = malloc(room * sizeof *left_rows);
        right_rows = malloc(room * sizeof *right_rows);
        ended = (struct muigratu_ended){MUIGRATU_OUT_OF_MEMORY, 0};
    }
    for (size_t pair = 0; pair < ended.length; pair++) {
        print_row(left_rows[pair], ' ');
        print_row(right_rows[pair], '\n');
    }
    free(left.numbers);
    free(left.there);
    free(right.numbers);
    free(right.there);
    free(left_rows);
    free(right_rows);
    return (int)ended.status;
}
