/*
 * Two callers of one proved service: caller 1 may check and bill, caller 2 may check and replay. The rights are given
 * here, before the first call; no call changes them. Each caller has a number of billed images of its own.
 *
 *     (cd crates/hidokpalu && rt lib)
 *     cc -std=c11 -Wall -Wextra -Iinclude examples/service.c crates/hidokpalu/out/libhidokpalu.a -o target/service
 *     target/service FILE [TRACE]
 *
 * TRACE has two bytes for each step that was taken, thread and position. Each call is printed with its code. The status
 * is 0 if the image is accepted, the trace is taken to its end and every call came to what the rights say, 1 if not, 2 if
 * there is no image or no trace.
 */
#include <stdio.h>

#include "hidokpalu.h"

enum { NORTH = 1, SOUTH = 2, STRANGER = 9 };

/* One byte more than an image may have, to see that one is too long. */
static uint8_t image[HIDOKPALU_IMAGE_BYTES + 1];
static uint8_t trimmed[HIDOKPALU_IMAGE_BYTES];
static size_t length;
static uint8_t trace[4096];
static size_t trace_length;
static uint32_t service[HIDOKPALU_SERVICE_NUMBERS];
static int surprises;

/* Prints a call's code, and counts it as a surprise if it is another one than it should be. */
static void told(size_t caller, const char *call, uint16_t code, uint16_t expected)
{
    printf("caller %zu, %s: code %u", caller, call, code);
    if (code != expected) {
        printf(" (%u was expected)", expected);
        surprises++;
    }
}

static void check(size_t caller, uint16_t expected)
{
    uint8_t record[HIDOKPALU_RECORD_BYTES] = {0};
    uint16_t code = serve_check(service, HIDOKPALU_SERVICE_NUMBERS, caller, image, length, record, sizeof record);
    told(caller, "check", code, expected);
    printf(", %u obligations met\n", record[HIDOKPALU_AT_COUNT] + 256u * record[HIDOKPALU_AT_COUNT + 1]);
}

static void trim(size_t caller, uint16_t expected)
{
    size_t written = 0;
    uint16_t code = serve_trim(service, HIDOKPALU_SERVICE_NUMBERS, caller, image, length, trimmed, sizeof trimmed, &written);
    told(caller, "trim", code, expected);
    printf(", %zu bytes of %zu\n", written, length);
}

/* Prices in cents: start, step, taken, interference; the least charge. */
static void bill(size_t caller, uint16_t expected)
{
    uint32_t answer[HIDOKPALU_BILL_NUMBERS] = {0};
    uint16_t code = serve_bill(service, HIDOKPALU_SERVICE_NUMBERS, caller, image, length, 10, 25, 30, 40, 500, answer,
                               HIDOKPALU_BILL_NUMBERS);
    told(caller, "bill", code, expected);
    printf(", %u cents, number %u\n", answer[HIDOKPALU_BILL_CENTS], answer[HIDOKPALU_BILL_BILLED]);
}

/* With room for as many writes as a table may have; registers that are open begin at 0. */
static void replay(size_t caller, uint16_t expected)
{
    uint8_t table[HIDOKPALU_WRITES * HIDOKPALU_WRITE_BYTES];
    size_t answer[HIDOKPALU_REPLAY_NUMBERS] = {0};
    uint16_t code = serve_replay(service, HIDOKPALU_SERVICE_NUMBERS, caller, image, length, trace, trace_length, NULL, 0,
                                 table, sizeof table, answer, HIDOKPALU_REPLAY_NUMBERS);
    told(caller, "replay", code, expected);
    printf(", %zu steps\n", answer[HIDOKPALU_REPLAY_STEPS]);
}

/* Reads a file to the front of a buffer; its length, or one more than the buffer has. */
static size_t read_file(const char *path, uint8_t *buffer, size_t room)
{
    FILE *file = fopen(path, "rb");
    if (file == NULL) {
        perror(path);
        return room + 1;
    }
    size_t read = fread(buffer, 1, room, file);
    int failed = ferror(file);
    fclose(file);
    if (failed) {
        perror(path);
        return room + 1;
    }
    return read;
}

int main(int argc, char **argv)
{
    if (argc != 2 && argc != 3) {
        fprintf(stderr, "usage: service FILE [TRACE]\n");
        return 2;
    }
    length = read_file(argv[1], image, sizeof image);
    trace_length = argc == 3 ? read_file(argv[2], trace, sizeof trace) : 0;
    if (length > sizeof image || trace_length > sizeof trace) {
        return 2;
    }

    const uint8_t rights[] = {HIDOKPALU_MAY_CHECK + HIDOKPALU_MAY_BILL, HIDOKPALU_MAY_CHECK + HIDOKPALU_MAY_REPLAY};
    if (open_service(rights, sizeof rights, service, HIDOKPALU_SERVICE_NUMBERS) != 0) {
        return 1;
    }
    check(NORTH, HIDOKPALU_ACCEPTED);
    check(SOUTH, HIDOKPALU_ACCEPTED);
    check(STRANGER, HIDOKPALU_NO_CALLER);
    trim(SOUTH, 0);
    bill(NORTH, 0);
    bill(SOUTH, HIDOKPALU_NO_RIGHT);
    bill(NORTH, 0);
    replay(SOUTH, 0);
    replay(NORTH, HIDOKPALU_NO_RIGHT);
    printf("billed images: %u of caller 1, %u of caller 2\n", service[HIDOKPALU_SERVICE_BILLED],
           service[HIDOKPALU_SERVICE_BILLED + 1]);
    if (fflush(stdout) != 0) {
        perror("standard output");
        return 2;
    }
    return surprises == 0 ? 0 : 1;
}
