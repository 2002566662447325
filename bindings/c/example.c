/*
 * The verdict on a sheet and each line with its type: example [FILE], or standard input.
 * The status is 0 for an accepted sheet, 1 for a refused one, 2 if there is none.
 */
#include "quanta_check.h"

#include <stdbool.h>
#include <stdio.h>

/* A byte more than is read, so that a longer sheet is refused as too long. */
static uint8_t sheet[QUANTA_MAX_BYTES + 1];
static uint16_t scratch[QUANTA_MAX_SCRATCH];
static uint8_t types[QUANTA_MAX_LINES];
static uint8_t message[QUANTA_MAX_BYTES];

static const char *const type_names[] = {
    [QUANTA_TYPE_NOT_REACHED] = "-",   [QUANTA_TYPE_INT] = "Int",
    [QUANTA_TYPE_BOOL] = "Bool",       [QUANTA_TYPE_ADDRESS] = "Address",
    [QUANTA_TYPE_ASSET] = "Asset",     [QUANTA_TYPE_WORD64] = "Word64",
    [QUANTA_TYPE_NAME] = "Name",       [QUANTA_TYPE_TIME] = "Time",
    [QUANTA_TYPE_STR] = "Str",         [QUANTA_TYPE_COLLECTION] = "Collection",
    [QUANTA_TYPE_UNKNOWN] = "Unknown", [QUANTA_TYPE_REFUSED] = "refused",
};

/* Reads at most as many bytes as `sheet` has; false if there is an error. */
static bool read_sheet(const char *path, size_t *length) {
    FILE *file = path ? fopen(path, "rb") : stdin;
    if (!file) {
        return false;
    }
    *length = fread(sheet, 1, sizeof sheet, file);
    bool good = !ferror(file);
    if (path) {
        fclose(file);
    }
    return good;
}

static void print_verdict(quanta_answer answer) {
    if (answer.number == 0) {
        puts("accepted");
        return;
    }
    printf("%u,%u", (unsigned)answer.number, (unsigned)answer.place);
    if (answer.number >= 12 && answer.length <= sizeof message) {
        printf(",%.*s", (int)answer.length, (const char *)message);
    }
    putchar('\n');
}

static void print_lines(size_t length) {
    size_t line = 0;
    bool starts = true;
    for (size_t at = 0; at < length; at++) {
        if (starts) {
            printf("%-10s  ", type_names[types[line]]);
            line++;
        }
        putchar(sheet[at]);
        starts = sheet[at] == '\n';
    }
}

int main(int argc, char **argv) {
    const char *path = argc > 1 ? argv[1] : NULL;
    size_t length;
    if (!read_sheet(path, &length)) {
        perror(path ? path : "standard input");
        return 2;
    }
    quanta_answer answer = quanta_check(sheet, length, scratch, QUANTA_MAX_SCRATCH, types,
                                        sizeof types, message, sizeof message);
    print_verdict(answer);
    if (answer.number == 0 || answer.number >= 12) {
        print_lines(length);
    }
    return answer.number == 0 ? 0 : 1;
}
