/*
 * Hidokpalu: a proved checker of proof outlines for C11 release-acquire programs.
 *
 * Link crates/hidokpalu/out/libhidokpalu.a, which `rt lib` writes in crates/hidokpalu (x86-64 Linux): it has every call
 * below. It needs memcpy and memset of the C library, and nothing else: no heap, no files, no state from one call to the
 * next. So any number of threads may call it at once.
 *
 * Stack, measured over all stored images: `check_image` takes 64 KB for the smallest that is accepted and 140 KB for a test nested as deep
 * as it may be. Give it 192 KB, and `replay_trace` too, which takes 2 KB more. `trim_image` takes 36 KB more than
 * `check_image`, `check_handover` 32 KB and `replay_handover` 44 KB: give them 256 KB. Each `serve_` call takes less than 1 KB
 * more than the call that it serves, `serve_bill` than `check_image`. What a service remembers stands in numbers that the
 * host lends.
 */
#ifndef HIDOKPALU_H
#define HIDOKPALU_H

#include <stddef.h>
#include <stdint.h>

#ifdef __cplusplus
extern "C" {
#endif

/* The verdict's code. */
enum hidokpalu_code {
    HIDOKPALU_ACCEPTED = 0,
    HIDOKPALU_SHORT_OUTPUT = 1,   /* the buffer has fewer than HIDOKPALU_RECORD_BYTES; nothing is written */
    /* The image as a whole. */
    HIDOKPALU_SIZE = 2,           /* empty, or above HIDOKPALU_IMAGE_BYTES */
    /* A record's frame. */
    HIDOKPALU_LENGTH = 3,         /* length cut short, under 2 or past the end */
    HIDOKPALU_KIND = 4,           /* kind unknown, misplaced, too often there or missing */
    /* A record's body. */
    HIDOKPALU_BODY = 5,           /* too short or too long */
    HIDOKPALU_NUMBER = 6,         /* a number outside its range, or an unused field that is not 0 */
    HIDOKPALU_FORMULA = 7,        /* the bytes of a formula are malformed */
    HIDOKPALU_SORT = 8,           /* a formula of the wrong sort where it is used */
    HIDOKPALU_OWNER = 9,          /* another thread's register in an instruction */
    HIDOKPALU_OPERAND = 23,       /* the operand of an exchange or a fetch-add names its result register */
    /* The first obligation that is not met. */
    HIDOKPALU_NO_LINE = 20,       /* it names no line of the certificate */
    HIDOKPALU_OTHER_CONCLUSION = 21, /* its line concludes something else */
    HIDOKPALU_UNJUSTIFIED = 22,   /* its line is not justified */
    /* Every obligation is met, and a claim is not borne out. */
    HIDOKPALU_CLAIM = 26,         /* the first whose line is missing, concludes something else or is not justified */
    /* Deprecated: the former name of HIDOKPALU_OTHER_CONCLUSION, which speaks of no claim. It stays for callers that have it. */
    HIDOKPALU_OTHER_CLAIM = HIDOKPALU_OTHER_CONCLUSION
};

/* The class of an obligation. */
enum hidokpalu_class {
    HIDOKPALU_START = 1,          /* the start state gives the thread's point 0 */
    HIDOKPALU_STEP = 2,           /* the instruction at the point leads to the next point's assertion */
    HIDOKPALU_TAKEN = 3,          /* the branch at the point, taken, leads to its target's assertion */
    HIDOKPALU_INTERFERENCE = 4    /* the other thread's instruction keeps the assertion at the point */
};

/* The most bytes of an image. */
#define HIDOKPALU_IMAGE_BYTES 262144

/*
 * The verdict as a record: eleven numbers of 16 bits, low byte first. Fields that don't apply are 0. Records, threads
 * and lines count from 1, points from 0.
 */
#define HIDOKPALU_RECORD_BYTES 22
#define HIDOKPALU_RECORD_KIND 7

/* Where each number stands. */
enum hidokpalu_offset {
    HIDOKPALU_AT_LENGTH = 0,      /* 20: the bytes that follow */
    HIDOKPALU_AT_KIND = 2,        /* HIDOKPALU_RECORD_KIND */
    HIDOKPALU_AT_CODE = 4,
    HIDOKPALU_AT_RECORD = 6,      /* codes 3 to 9, 23 and 26: the record at fault */
    HIDOKPALU_AT_CLASS = 8,       /* from here to the line, codes 20 to 22: the obligation; 26: 0, and the claim */
    HIDOKPALU_AT_THREAD = 10,
    HIDOKPALU_AT_POINT = 12,
    HIDOKPALU_AT_OTHER_THREAD = 14, /* interference: the thread that acts; 26: the claim's other thread */
    HIDOKPALU_AT_OTHER_POINT = 16,
    HIDOKPALU_AT_LINE = 18,       /* the line that it names, if any */
    HIDOKPALU_AT_COUNT = 20       /* codes 0, 20 to 22 and 26: how many obligations are met before the answer */
};

/*
 * Judges an image. Answers the verdict's code and writes the verdict to the buffer.
 *
 * Every byte string is judged, and every buffer will do; the call always returns. Result and buffer follow from the
 * image and the buffer's length alone:
 *
 * - A buffer below HIDOKPALU_RECORD_BYTES: the answer is HIDOKPALU_SHORT_OUTPUT whatever the image holds, and nothing
 *   is written.
 * - Otherwise the first HIDOKPALU_RECORD_BYTES of the buffer become the verdict's record, its code is the answer, and
 *   the bytes behind it stay.
 *
 * HIDOKPALU_ACCEPTED means: for the program and the assertions that the image holds, after every finite list of steps
 * from the start state, refused steps among them, each thread's assertion at its point is true, and of each claim that
 * the image holds: the two threads are never at its two points together. It does not say that the program ends.
 *
 * The caller sees to it that
 *
 * - `image` points to `image_len` bytes that may be read, and `out` to `out_len` bytes that may be written. With
 *   length 0 the pointer may be anything, NULL too: it is not used.
 * - the two do not overlap.
 * - until the call returns nothing else writes the image, or reads or writes the buffer: no other thread, and no other
 *   process through shared or mapped memory. Copy such an image first.
 */
uint16_t check_image(const uint8_t *image, size_t image_len, uint8_t *out, size_t out_len);

/* Codes of the calls below, besides HIDOKPALU_ACCEPTED. */
enum hidokpalu_further_code {
    HIDOKPALU_TRIM_REFUSED = 24,  /* trim_image: the image is not accepted */
    HIDOKPALU_REPLAY_REFUSED = 24, /* replay_trace: the same */
    HIDOKPALU_TRIM_ROOM = 25,     /* trim_image: the buffer is shorter than the trimmed image */
    HIDOKPALU_STEP_THREAD = 27,   /* replay_trace: the step's thread is absent or at its last point, or it is half a step */
    HIDOKPALU_STEP_PICK = 28,     /* replay_trace: the step's position is not permitted */
    HIDOKPALU_STEP_ROOM = 29,     /* replay_trace: no entry is left for a write */
    HIDOKPALU_BILL_REFUSED = 30,  /* serve_bill: the image is not accepted */
    HIDOKPALU_BILL_END = 31,      /* serve_bill: the caller's number of billed images is at its end */
    HIDOKPALU_UNLIKE = 32,        /* check_handover, replay_handover: an image is not accepted, or the two are unlike */
    HIDOKPALU_TABLE = 33,         /* the same: the table is too short, too long or somewhere out of range */
    HIDOKPALU_UNSERVED = 34,      /* the same: a named line does not serve */
    HIDOKPALU_NO_CALLER = 35,     /* serve_...: no caller from 1 to HIDOKPALU_CALLERS */
    HIDOKPALU_NO_RIGHT = 36       /* serve_...: the caller lacks the right */
};

/*
 * Trims an image for the archive: from an accepted image one with the same program, outline and claims, the lines on
 * which an obligation or a claim rests, and the formulas that are still named, both in their old order and renumbered.
 * It is accepted with the same count, it is no longer than the image, and trimming it again gives the same bytes.
 *
 * - 0: the trimmed image stands in the front of the buffer, `*written` is its length, and the bytes behind it stay.
 * - HIDOKPALU_TRIM_REFUSED: `check_image` does not accept the image, whatever the buffer's length. A claim that fails
 *   is refused too.
 * - HIDOKPALU_TRIM_ROOM: the buffer is shorter than the trimmed image. One as long as the image is long enough.
 *
 * With an error `*written` is 0 and the buffer stays as it was. The caller sees to the pointers as above; `written`
 * points to a number of its own.
 */
uint16_t trim_image(const uint8_t *image, size_t image_len, uint8_t *out, size_t out_len, size_t *written);

/* How many numbers an answer of replay_trace has, and where each stands. */
#define HIDOKPALU_REPLAY_NUMBERS 21
enum hidokpalu_replay_at {
    HIDOKPALU_REPLAY_STEPS = 0,   /* the steps taken */
    HIDOKPALU_REPLAY_POINT = 1,   /* from here on the points of threads 1 to 4, 0 for one that is not there */
    HIDOKPALU_REPLAY_REGISTER = 5 /* from here on registers 1 to 16, 0 for one that is not there */
};

/* The most writes, the bytes of an entry of the table, and where each stands in it. */
#define HIDOKPALU_WRITES 64
#define HIDOKPALU_WRITE_BYTES 11
enum hidokpalu_write_at {
    HIDOKPALU_WRITE_VALUE = 0,
    HIDOKPALU_WRITE_RELEASING = 1, /* 0 or 1 */
    HIDOKPALU_WRITE_COVERED = 2,  /* 0 or 1 */
    HIDOKPALU_WRITE_VIEW = 3      /* from here on a position in the row of words 1 to 8, from 0; 0 for one that is not there */
};

/*
 * Replays a trace on the machine of an accepted image: two bytes for a step, the thread, from 1, and the position, from
 * 0, in the row of the instruction's word of the write that it picks; 0 for an instruction that picks none. A register
 * whose mark in the header is 0 starts with the byte that `given` has for it, modulo the range: the first byte is for
 * register 1, a byte that is missing is 0, and bytes behind the 16th are not looked at.
 *
 * - HIDOKPALU_SHORT_OUTPUT: the answer has fewer than HIDOKPALU_REPLAY_NUMBERS, whatever the image and the trace; neither
 *   it nor the table is written.
 * - HIDOKPALU_REPLAY_REFUSED: `check_image` does not accept the image. The table stays, the answer's numbers are 0.
 * - HIDOKPALU_STEP_ROOM before any step: the words have more start writes than there are entries, for an empty trace
 *   too. The table stays; points and registers are as at the start, the steps are 0.
 * - else each step in turn until one is refused: the lowest of HIDOKPALU_STEP_THREAD, a single last byte too,
 *   HIDOKPALU_STEP_PICK and HIDOKPALU_STEP_ROOM, which only a step that adds a write can have. 0: the trace is at its end.
 *   A refused step changes nothing. The answer has the steps taken, points and registers of the state reached, and the
 *   table its writes: word by word, each row in order.
 *
 * The table has `table_len` / HIDOKPALU_WRITE_BYTES entries, of which at most HIDOKPALU_WRITES are used. Entries that are
 * not used stay, and so do bytes behind the last whole entry and numbers behind the answer's last.
 *
 * Every state on the way is one of the machine's, so in each of them each thread's assertion at its point is true. The
 * caller sees to the pointers as above; no two of the five overlap.
 */
uint16_t replay_trace(const uint8_t *image, size_t image_len, const uint8_t *trace, size_t trace_len,
                      const uint8_t *given, size_t given_len, uint8_t *table, size_t table_len, size_t *answer,
                      size_t answer_len);

/* The bytes of an entry of a handover table, and where each number stands in it. */
#define HIDOKPALU_HANDOVER_BYTES 3
enum hidokpalu_handover_at {
    HIDOKPALU_HANDOVER_POINT = 0, /* the new point */
    HIDOKPALU_HANDOVER_LINE = 1   /* the line of the new image, 16 bits, low byte first */
};

/*
 * Permits or refuses new code without a restart: from the old image to the new one, by a table with an entry for each old
 * point, threads in order, last points too.
 *
 * - HIDOKPALU_UNLIKE: `check_image` does not accept one of the images, or the bodies of their header records differ
 *   (threads, words, registers, range, start values, owners, start marks). How many points a thread has may differ.
 * - HIDOKPALU_TABLE: the table has another length than HIDOKPALU_HANDOVER_BYTES for each old point, or anywhere a new
 *   point that its thread does not have in the new image, or a line that the new image does not have, 0 too.
 * - HIDOKPALU_UNSERVED, after every HIDOKPALU_TABLE: for some old point the line is no justified implication of the new
 *   image whose left formula has the bytes of the old point's assertion and whose right formula those of the new point's.
 * - 0: the handover is permitted. After every list of steps of the old program, the handover (the same memory, views and
 *   registers, each point as the table has it) and every list of steps of the new program, refused ones among them, each
 *   thread's assertion at its point in the new image is true.
 *
 * Lines that only a table names rest under no obligation, so trim_image drops them. The caller sees to the pointers as above.
 */
uint16_t check_handover(const uint8_t *old_image, size_t old_len, const uint8_t *new_image, size_t new_len,
                        const uint8_t *table, size_t table_len);

/*
 * Replays a trace on the machine of the old image, hands over by the table `points`, and goes on with a second trace on
 * the machine of the new image, with the same memory, views and registers. Answer and table are as of replay_trace, the
 * registers given too; HIDOKPALU_SHORT_OUTPUT comes first.
 *
 * - HIDOKPALU_UNLIKE, HIDOKPALU_TABLE, HIDOKPALU_UNSERVED as of check_handover: the table stays, the answer's numbers are 0.
 * - HIDOKPALU_STEP_ROOM before any step: as of replay_trace, on the old image.
 * - a step refused in the first trace: its code, the steps so far, the old points, the state reached. The second trace is
 *   not looked at.
 * - else the second trace under the new code from the new points, an empty one too: its code, the steps of both traces,
 *   the state reached.
 *
 * In each state on the way under the old code each thread's old assertion at its point is true, in each under the new code
 * its new one. The caller sees to the pointers as above; no two of the eight overlap.
 */
uint16_t replay_handover(const uint8_t *old_image, size_t old_len, const uint8_t *new_image, size_t new_len,
                         const uint8_t *points, size_t points_len, const uint8_t *first, size_t first_len,
                         const uint8_t *second, size_t second_len, const uint8_t *given, size_t given_len,
                         uint8_t *table, size_t table_len, size_t *answer, size_t answer_len);

/*
 * A SERVICE for up to HIDOKPALU_CALLERS callers, which count from 1. It is HIDOKPALU_SERVICE_NUMBERS numbers that the
 * host lends to every call: the rights of each caller, then how many images each was billed. The host opens it once,
 * hands it to every call, one call at a time, and writes nothing in it itself; it may keep any number of services.
 *
 * A call of a service is the call without one, except that
 *
 * - HIDOKPALU_NO_CALLER: the caller is not 1 to HIDOKPALU_CALLERS.
 * - HIDOKPALU_NO_RIGHT, after it: the caller lacks the right that the call needs.
 *
 * Both come before every other check, HIDOKPALU_SHORT_OUTPUT too. With them the service and every buffer stay as they
 * were, a length that is told is 0, and an answer of numbers that has its room becomes zeros.
 *
 * What a caller is answered follows from its rights, its number and its own calls: whatever other callers do between
 * them, refused calls among it, its codes, buffers and bills and its number are the same.
 */
#define HIDOKPALU_CALLERS 8
#define HIDOKPALU_SERVICE_NUMBERS 16

/* Where the rights of caller 1 stand, and its number of billed images; those of the others follow. */
enum hidokpalu_service_at {
    HIDOKPALU_SERVICE_RIGHTS = 0,
    HIDOKPALU_SERVICE_BILLED = 8
};

/* The rights of a caller: a sum of these. */
enum hidokpalu_right {
    HIDOKPALU_MAY_CHECK = 1,      /* serve_check, serve_trim, serve_handover */
    HIDOKPALU_MAY_REPLAY = 2,     /* serve_replay, serve_replay_handover */
    HIDOKPALU_MAY_BILL = 4        /* serve_bill */
};

/*
 * Opens a service. `rights` has a byte for each caller, which is taken modulo 8; callers without a byte have no right,
 * and bytes behind the eighth are not read.
 *
 * - 0: the first HIDOKPALU_SERVICE_NUMBERS of `service` are the rights, then a 0 for each caller; numbers behind stay.
 * - HIDOKPALU_SHORT_OUTPUT: there are fewer numbers; nothing is written.
 *
 * Rights do not change from then on: no call writes them.
 */
uint16_t open_service(const uint8_t *rights, size_t rights_len, uint32_t *service, size_t service_len);

/* `check_image` for a caller with HIDOKPALU_MAY_CHECK. */
uint16_t serve_check(const uint32_t *service, size_t service_len, size_t caller, const uint8_t *image, size_t image_len,
                     uint8_t *out, size_t out_len);

/* `trim_image` for a caller with HIDOKPALU_MAY_CHECK. */
uint16_t serve_trim(const uint32_t *service, size_t service_len, size_t caller, const uint8_t *image, size_t image_len,
                    uint8_t *out, size_t out_len, size_t *written);

/* `check_handover` for a caller with HIDOKPALU_MAY_CHECK. */
uint16_t serve_handover(const uint32_t *service, size_t service_len, size_t caller, const uint8_t *old_image,
                        size_t old_len, const uint8_t *new_image, size_t new_len, const uint8_t *table,
                        size_t table_len);

/* `replay_trace` for a caller with HIDOKPALU_MAY_REPLAY. */
uint16_t serve_replay(const uint32_t *service, size_t service_len, size_t caller, const uint8_t *image,
                      size_t image_len, const uint8_t *trace, size_t trace_len, const uint8_t *given, size_t given_len,
                      uint8_t *table, size_t table_len, size_t *answer, size_t answer_len);

/* `replay_handover` for a caller with HIDOKPALU_MAY_REPLAY. */
uint16_t serve_replay_handover(const uint32_t *service, size_t service_len, size_t caller, const uint8_t *old_image,
                               size_t old_len, const uint8_t *new_image, size_t new_len, const uint8_t *points,
                               size_t points_len, const uint8_t *first, size_t first_len, const uint8_t *second,
                               size_t second_len, const uint8_t *given, size_t given_len, uint8_t *table,
                               size_t table_len, size_t *answer, size_t answer_len);

/* How many numbers an answer of serve_bill has, and where each stands. */
#define HIDOKPALU_BILL_NUMBERS 6
enum hidokpalu_bill_at {
    HIDOKPALU_BILL_CENTS = 0,     /* the larger of the sum and the least charge */
    HIDOKPALU_BILL_BILLED = 1,    /* how many images the caller is billed by now */
    HIDOKPALU_BILL_THREAD = 2     /* from here on the sums of threads 1 to 4, 0 for one that is not there */
};

/*
 * Bills an accepted image to a caller with HIDOKPALU_MAY_BILL: cents for each obligation by its class (`start`, `step`,
 * `taken`, `interference`: classes 1 to 4), and at least the least charge, which is in no thread's sum. Class 4 belongs
 * to the thread that acts, the other classes to their own. Claims cost nothing.
 *
 * - 0: the answer's first HIDOKPALU_BILL_NUMBERS are written, and the caller's number is one higher, for a bill of 0
 *   cents too. Nothing else in the service changes.
 * - HIDOKPALU_SHORT_OUTPUT: the answer has fewer numbers, or the service ends before the caller's number, whatever the
 *   image and that number; nothing is written.
 * - HIDOKPALU_BILL_REFUSED: `check_image` does not accept the image.
 * - HIDOKPALU_BILL_END, after it: the caller's number is 4294967295.
 *
 * With the last two cents and sums are 0 and the number stays. Numbers behind the sixth stay. The caller sees to the
 * pointers as above; the service is memory of its own.
 */
uint16_t serve_bill(uint32_t *service, size_t service_len, size_t caller, const uint8_t *image, size_t image_len,
                    uint16_t start, uint16_t step, uint16_t taken, uint16_t interference, uint16_t least,
                    uint32_t *answer, size_t answer_len);

#ifdef __cplusplus
}
#endif

#endif
