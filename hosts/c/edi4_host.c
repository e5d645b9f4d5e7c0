/*
 * Prints a file's report and, if the file is accepted, its total in a currency.
 *
 *     edi4_host FILE [CURRENCY]
 *
 * FILE may be - for standard input. The currency is DKK if none is given. The exit status is 0 if
 * the file is accepted, 1 if it is refused, 2 if it cannot be read.
 */
#include "edi4.h"

#include <inttypes.h>
#include <stdio.h>
#include <stdlib.h>
#include <string.h>

typedef struct {
    uint8_t *bytes;
    size_t length;
    size_t room;
} buffer;

/* Makes room for at least one byte more. */
static int grow(buffer *b)
{
    size_t room = b->room ? 2 * b->room : 65536;
    uint8_t *bytes = realloc(b->bytes, room);
    if (!bytes)
        return 0;
    b->bytes = bytes;
    b->room = room;
    return 1;
}

/* Reads all of the stream. */
static int read_all(FILE *in, buffer *b)
{
    do {
        if (b->length == b->room && !grow(b))
            return 0;
        b->length += fread(b->bytes + b->length, 1, b->room - b->length, in);
    } while (b->length == b->room);
    return !ferror(in);
}

static int read_file(const char *name, buffer *b)
{
    if (strcmp(name, "-") == 0)
        return read_all(stdin, b);
    FILE *in = fopen(name, "rb");
    if (!in)
        return 0;
    int done = read_all(in, b);
    fclose(in);
    return done;
}

static void print_report(const buffer *file)
{
    static uint8_t out[EDI4_MOST_REPORT];
    edi4_answer answer = edi4_report(file->bytes, file->length, out, sizeof out);
    fwrite(out, 1, (size_t)answer.value, stdout);
}

static int print_total(const buffer *file, const char *currency)
{
    edi4_answer answer =
        edi4_total(file->bytes, file->length, (const uint8_t *)currency, strlen(currency));
    if (answer.number != 0) {
        printf("refused: number %d layer %d line %zu field %zu byte %zu\n", answer.number,
               answer.layer, answer.line, answer.field, answer.byte);
        return 1;
    }
    printf("total %s %" PRIu64 ".%02d\n", currency, answer.value / 100, (int)(answer.value % 100));
    return 0;
}

int main(int count, char **words)
{
    buffer file = {NULL, 0, 0};
    if (count < 2 || count > 3) {
        fprintf(stderr, "usage: %s FILE [CURRENCY]\n", words[0]);
        return 2;
    }
    if (!read_file(words[1], &file)) {
        fprintf(stderr, "%s cannot be read\n", words[1]);
        free(file.bytes);
        return 2;
    }
    print_report(&file);
    int status = print_total(&file, count == 3 ? words[2] : "DKK");
    free(file.bytes);
    return status;
}
