/* ask COMMAND < request > answer: what the JSON program does, over the library. Its exit status is that of the call. */
#include "muigratu.h"
#include <stdio.h>
#include <stdlib.h>
#include <string.h>

typedef struct muigratu_ended call(const unsigned char *, size_t, unsigned char *, size_t);

static const struct {
    const char *name;
    call *call;
} commands[] = {
    {"join", muigratu_join},
    {"unpivot", muigratu_unpivot},
    {"pivot", muigratu_pivot},
    {"dummies", muigratu_dummies},
};

static call *named(const char *name) {
    for (size_t i = 0; i < sizeof commands / sizeof *commands; i++)
        if (!strcmp(name, commands[i].name)) return commands[i].call;
    return NULL;
}

/* All of standard input, or NULL where memory is wanting. */
static unsigned char *read_all(size_t *length) {
    size_t room = 1 << 16;
    unsigned char *bytes = malloc(room);
    *length = 0;
    while (bytes) {
        size_t got = fread(bytes + *length, 1, room - *length, stdin);
        *length += got;
        if (!got) break;
        if (*length == room) {
            unsigned char *more = realloc(bytes, room *= 2);
            if (!more) free(bytes);
            bytes = more;
        }
    }
    return bytes;
}

int main(int argc, char **argv) {
    call *asked = argc == 2 ? named(argv[1]) : NULL;
    if (!asked || muigratu_abi() != MUIGRATU_ABI) return 2;
    size_t length;
    unsigned char *request = read_all(&length);
    /* Too small for most answers on purpose: the second call has the room that the first one tells. */
    size_t room_length = 64;
    unsigned char *room = malloc(room_length);
    if (!request || !room) return MUIGRATU_OUT_OF_MEMORY;
    struct muigratu_ended ended = asked(request, length, room, room_length);
    if (ended.length > room_length) {
        free(room);
        room_length = ended.length;
        room = malloc(room_length);
        if (!room) return MUIGRATU_OUT_OF_MEMORY;
        ended = asked(request, length, room, room_length);
    }
    if (fwrite(room, 1, ended.length, stdout) != ended.length || fflush(stdout)) return 5;
    free(room);
    free(request);
    return (int)ended.status;
}
