/*
 * Tests of the call: test SHEETS EXPECTED, the stored answers of the Rust, whose format is in
 * reference/README.md. The cases P1 to P10 of reference/cases are the first.
 */
#include "quanta_check.h"

#include <inttypes.h>
#include <stdbool.h>
#include <stdio.h>
#include <stdlib.h>
#include <string.h>

/* A sheet and the lengths of what is lent with it. */
struct call {
    const uint8_t *sheet;
    size_t sheet_len, scratch_len, types_len, message_len;
};

/* The answer, and what is written to scratch, type table and message. */
struct wanted {
    quanta_answer answer;
    size_t zeros;
    uint8_t types[QUANTA_MAX_LINES];
    size_t types_len;
    const uint8_t *message;
    size_t message_len;
};

/*
 * The answer is written as in the stored ones, where the second four numbers are the zeros in the
 * scratch and how much of scratch, types and message is untouched:
 * number,place,count,length;zeros,scratch,types,message;TYPES;MESSAGE
 */
struct row {
    const char *sheet;
    size_t scratch_len, types_len, message_len;
    const char *answer;
};

#define EXAMPLE "contract,1\nstate,1\nfield,10,level,1\ntype,11,u8,0\nint,17,300\n"
#define ANSWER "27,17,1,52;"
#define TYPES "0 0 0 0 1;"
#define MESSAGE "300 does not fit `level`, whose largest value is 255"

static const struct row rows[] = {
    /* Buffers that are exact, and longer ones. */
    {EXAMPLE, 40, 5, 52, ANSWER "40,0,0,0;" TYPES MESSAGE},
    {EXAMPLE, 99, 23, 77, ANSWER "40,59,18,25;" TYPES MESSAGE},
    /* A message that does not fit. */
    {EXAMPLE, 40, 5, 51, ANSWER "40,0,0,51;" TYPES},
    {EXAMPLE, 40, 5, 0, ANSWER "40,0,0,0;" TYPES},
    /* Short tables; of two faults the lower number. */
    {EXAMPLE, 40, 4, 52, "4,0,0,0;0,40,4,52;;"},
    {EXAMPLE, 40, 0, 52, "4,0,0,0;0,40,0,52;;"},
    {EXAMPLE, 39, 5, 52, "5,0,0,0;0,39,5,52;;"},
    {EXAMPLE, 0, 5, 52, "5,0,0,0;0,0,5,52;;"},
    {EXAMPLE, 0, 0, 0, "4,0,0,0;0,0,0,0;;"},
    /* An empty sheet, with nothing and with something lent. */
    {"", 0, 0, 0, "2,0,0,0;0,0,0,0;;"},
    {"", 8, 1, 16, "2,0,0,0;0,8,1,16;;"},
    /* Accepted without a message buffer. */
    {"contract,0\n", 8, 1, 0, "0,0,0,0;8,0,0,0;0;"},
    /* Sheets that are not read, by line. */
    {"contract,0\n\n", 16, 2, 8, "6,2,0,0;16,0,2,8;;"},
    {"contract,1\ntype,1,u8,0\n", 16, 2, 8, "8,2,0,0;16,0,2,8;;"},
    {"contract,1\nstate\n", 16, 2, 8, "9,2,0,0;16,0,2,8;;"},
    {"contract,\xff\n", 8, 1, 8, "10,1,0,0;8,0,1,8;;"},
    {"contract,1\n", 8, 1, 8, "11,2,0,0;8,0,1,8;;"},
};

/* Bytes on either side of a lent buffer, which must stay as they are. */
enum { GUARD = 64 };

struct lent {
    uint8_t *bytes;
    size_t size;
};

static uint8_t noise(size_t at) {
    return (uint8_t)(at * 151 + 90);
}

/* A buffer between its guards, full of noise. */
static struct lent lend(size_t size) {
    struct lent lent = {malloc(size + 2 * GUARD), size};
    if (!lent.bytes) {
        abort();
    }
    for (size_t at = 0; at < size + 2 * GUARD; at++) {
        lent.bytes[at] = noise(at);
    }
    return lent;
}

static void *start(struct lent lent) {
    return lent.bytes + GUARD;
}

/* Whether a buffer starts with the bytes and is otherwise as it was lent. Gives it back. */
static bool returns(struct lent lent, const uint8_t *bytes, size_t length) {
    bool same = length <= lent.size;
    for (size_t at = 0; same && at < lent.size + 2 * GUARD; at++) {
        bool written = at >= GUARD && at < GUARD + length;
        same = lent.bytes[at] == (written ? bytes[at - GUARD] : noise(at));
    }
    free(lent.bytes);
    return same;
}

static bool agrees(const struct call *call, const struct wanted *wanted) {
    static const uint8_t zeros[QUANTA_MAX_SCRATCH * sizeof(uint16_t)];
    struct lent sheet = lend(call->sheet_len);
    struct lent scratch = lend(call->scratch_len * sizeof(uint16_t));
    struct lent types = lend(call->types_len);
    struct lent message = lend(call->message_len);
    if (call->sheet_len > 0) {
        memcpy(start(sheet), call->sheet, call->sheet_len);
    }
    quanta_answer got =
        quanta_check(start(sheet), call->sheet_len, start(scratch), call->scratch_len, start(types),
                     call->types_len, start(message), call->message_len);
    const quanta_answer *want = &wanted->answer;
    bool same_answer = got.number == want->number && got.place == want->place &&
                       got.count == want->count && got.length == want->length;
    bool same_sheet = returns(sheet, call->sheet, call->sheet_len);
    bool same_scratch = returns(scratch, zeros, wanted->zeros * sizeof(uint16_t));
    bool same_types = returns(types, wanted->types, wanted->types_len);
    bool same_message = returns(message, wanted->message, wanted->message_len);
    return same_answer && same_sheet && same_scratch && same_types && same_message;
}

/* Takes the codes up to `;`, and gives the text from there on. */
static const char *parse_types(const char *text, struct wanted *wanted) {
    size_t count = 0;
    while (*text != ';' && count < QUANTA_MAX_LINES) {
        char *end;
        wanted->types[count] = (uint8_t)strtoul(text, &end, 10);
        count++;
        text = end;
    }
    wanted->types_len = count;
    return text;
}

/* Takes what the buffers hold; false if that is not all of what the call lends. */
static bool parse_held(const char *text, const struct call *call, struct wanted *wanted) {
    size_t scratch, types, message;
    int head = 0;
    sscanf(text, "%zu,%zu,%zu,%zu;%n", &wanted->zeros, &scratch, &types, &message, &head);
    if (head == 0) {
        return false;
    }
    const char *rest = parse_types(text + head, wanted);
    if (*rest != ';') {
        return false;
    }
    wanted->message = (const uint8_t *)rest + 1;
    wanted->message_len = strcspn(rest + 1, "\n");
    return wanted->zeros + scratch == call->scratch_len &&
           wanted->types_len + types == call->types_len &&
           wanted->message_len + message == call->message_len;
}

/* Takes a line apart; false if it is no answer to the call. */
static bool parse(const char *line, const struct call *call, struct wanted *wanted) {
    quanta_answer *answer = &wanted->answer;
    int head = 0;
    sscanf(line, "%" SCNu32 ",%" SCNu32 ",%" SCNu32 ",%" SCNu32 ";%n", &answer->number,
           &answer->place, &answer->count, &answer->length, &head);
    return head > 0 && parse_held(line + head, call, wanted);
}

static bool test_rows(void) {
    size_t count = sizeof rows / sizeof rows[0], wrong = 0;
    for (size_t at = 0; at < count; at++) {
        const struct row *row = &rows[at];
        struct call call = {(const uint8_t *)row->sheet, strlen(row->sheet), row->scratch_len,
                            row->types_len, row->message_len};
        struct wanted wanted;
        if (!parse(row->answer, &call, &wanted) || !agrees(&call, &wanted)) {
            printf("row %zu differs: %s\n", at + 1, row->answer);
            wrong++;
        }
    }
    printf("%zu rows, %zu differ\n", count, wrong);
    return wrong == 0;
}

/* The next frame; false if there is none. */
static bool read_frame(FILE *sheets, struct call *call) {
    static uint8_t sheet[100000];
    if (fscanf(sheets, "%5zu %5zu %5zu %5zu", &call->sheet_len, &call->scratch_len,
               &call->types_len, &call->message_len) != 4) {
        return false;
    }
    call->sheet = sheet;
    return fgetc(sheets) == '\n' && fread(sheet, 1, call->sheet_len, sheets) == call->sheet_len;
}

static bool test_stored(FILE *sheets, FILE *expected) {
    static char line[1 << 16];
    size_t count = 0, wrong = 0;
    while (fgets(line, sizeof line, expected)) {
        struct call call;
        struct wanted wanted;
        count++;
        if (!read_frame(sheets, &call) || !parse(line, &call, &wanted) || !agrees(&call, &wanted)) {
            printf("stored answer %zu differs: %s", count, line);
            wrong++;
        }
    }
    printf("%zu stored answers, %zu differ\n", count, wrong);
    return count > 0 && wrong == 0 && fgetc(sheets) == EOF;
}

int main(int argc, char **argv) {
    FILE *sheets = argc == 3 ? fopen(argv[1], "rb") : NULL;
    FILE *expected = argc == 3 ? fopen(argv[2], "r") : NULL;
    if (!sheets || !expected) {
        fputs("test SHEETS EXPECTED: the stored answers are wanted\n", stderr);
        return 2;
    }
    bool good = test_rows();
    good = test_stored(sheets, expected) && good;
    fclose(sheets);
    fclose(expected);
    return good ? 0 : 1;
}
