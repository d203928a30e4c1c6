/*
 * Prints the standing of a book file, through the static library. From the
 * top of the repository, once the library is built:
 *
 *   cc -std=c99 -Wall -Wextra -O2 -Iinclude -o target/standing-c \
 *      examples/link/standing.c target/staticlib/libhollupaq.a
 *   target/standing-c examples/family-in-arrears.book
 */
#include "hollupaq.h"

#include <stdio.h>
#include <stdlib.h>

static uint8_t text[HOLLUPAQ_REPORT_ROOM(HOLLUPAQ_MOST_ACCOUNTS)];

/* The whole file in memory of its own, or null where there is too little. */
static uint8_t *read_all(FILE *file, size_t *length)
{
    size_t room = 65536;
    uint8_t *bytes = malloc(room);

    *length = 0;
    while (bytes != NULL) {
        uint8_t *grown = NULL;

        *length += fread(bytes + *length, 1, room - *length, file);
        if (*length < room)
            return bytes;
        if (room <= SIZE_MAX / 2)
            grown = realloc(bytes, room *= 2);
        if (grown == NULL)
            free(bytes);
        bytes = grown;
    }
    return NULL;
}

int main(int argc, char **argv)
{
    FILE *file;
    uint8_t *book;
    size_t length, written;

    if (argc != 2) {
        fprintf(stderr, "standing-c BOOK\n");
        return 2;
    }
    file = fopen(argv[1], "rb");
    if (file == NULL) {
        perror(argv[1]);
        return 1;
    }
    book = read_all(file, &length);
    if (book == NULL || ferror(file)) {
        perror(argv[1]);
        return 1;
    }
    fclose(file);
    written = (size_t)hollupaq_report(book, length, text, sizeof text);
    free(book);
    if (fwrite(text, 1, written, stdout) != written || fflush(stdout) != 0) {
        perror("standing-c");
        return 1;
    }
    return 0;
}
