/*
 * What an adapter does: it starts a chain, recovers from each cut by giruve_recover, and starts the restart programs until the chain has
 * ended. Part 1 stands where an adapter has its channel; here the trial drive plays the device. Part 2 is what an adapter copies. Part 3
 * reads a track with three faulted records, and compares with a run without faults.
 */
#include <stdio.h>
#include <stdlib.h>
#include <string.h>

#include "giruve.h"

enum { TAG_AND_LENGTH = 3, SEEK_ARGUMENT = 6, FIRST_CCW = 2, MASK = 1, CCW = GIRUVE_CHAIN_MIN, AT_SENSE_ID = 8, STORAGE = 20 };

/* of the pack on the drive */
static const uint8_t model = GIRUVE_MODEL_1;

static const uint8_t chain[] = {
    0x1F, 0, 0, 0x0B, 0x40, 0, 0, 1,  /* 0000 set file mask */
    0x07, 0, 0, 0x00, 0x40, 0, 0, 6,  /* 0008 seek */
    0x31, 0, 0, 0x06, 0x40, 0, 0, 5,  /* 0010 search ID equal */
    0x08, 0, 0, 0x10, 0x00, 0, 0, 0,  /* 0018 TIC to the search */
    0x06, 0, 0, 0x00, 0x40, 0, 0, 4,  /* 0020 read data of record 1 */
    0x06, 0, 0, 0x04, 0x40, 0, 0, 4,  /* 0028 read data of record 2 */
    0x1E, 0, 0, 0x08, 0x00, 0, 0, 12, /* 0030 read count, key and data of record 3 */
};

/* the seek argument, track 000/01; the ID of its record 1; a mask that forbids writes */
static const uint8_t arguments[] = {0, 0, 0, 0, 0, 1, 0, 0, 0, 1, 1, 0x40};

static uint8_t storage[STORAGE], program[GIRUVE_PROGRAM], restart_arguments[GIRUVE_RESTART_ARGUMENTS];

/* ---- 1. The device */

/* track 000/01: its home address, and records 0 to 3 */
static const uint8_t image[] = {
    0x01, 0, 5, 0, 0, 0, 0, 1,
    0x02, 0, 16, 0, 0, 0, 1, 0, 0, 0, 8, 0, 0, 0, 0, 0, 0, 0, 0,
    0x02, 0, 12, 0, 0, 0, 1, 1, 0, 0, 4, 0xC1, 0xC2, 0xC3, 0xC4,
    0x02, 0, 12, 0, 0, 0, 1, 2, 0, 0, 4, 0xD1, 0xD2, 0xD3, 0xD4,
    0x02, 0, 12, 0, 0, 0, 1, 3, 0, 0, 4, 0xE1, 0xE2, 0xE3, 0xE4,
};
static const uint8_t faults[] = {
    0x20, 0, 10, 0, 0, 0, 1, 1, 0, 3, 0x00, 0x01, 0x00,
    0x20, 0, 10, 0, 0, 0, 1, 2, 0, 4, 0xFF, 0x00, 0x00,
    0x20, 0, 10, 0, 0, 0, 1, 3, 0, 2, 0x12, 0x34, 0x56,
};

/*
 * How a chain ended: a CSW and sense bytes, as a device shows them; and the mask and the first CCW of a read that was cut, which an adapter
 * knows from the chain that it has started. All stand at their places GIRUVE_AT_RUN_.. Of a real CSW an adapter makes the first byte 0 here,
 * and takes the base of the chain off its address.
 */
typedef uint8_t ending[GIRUVE_RUN_ANSWER];

static void started(uint8_t number)
{
    if (number != GIRUVE_DONE) {
        printf("the device fails by %d\n", number);
        exit(EXIT_FAILURE);
    }
}

/* Starts the chain and waits for its end; without faults where the length of the fault list is 0. */
static void start_chain(ending end, size_t faults_length)
{
    started(giruve_run(model, chain, sizeof chain, arguments, sizeof arguments, storage, sizeof storage, image, sizeof image,
                       faults, faults_length, GIRUVE_LIMIT_MAX, end, GIRUVE_RUN_ANSWER));
}

/* Places the restart at GIRUVE_PROGRAM_ADDRESS and GIRUVE_RESTART_ARGUMENTS_ADDRESS, starts it, and waits for the end. */
static void start_restart(ending end)
{
    started(giruve_run_restart(model, chain, sizeof chain, arguments, sizeof arguments, program, sizeof program,
                               restart_arguments, sizeof restart_arguments, storage, sizeof storage, image, sizeof image,
                               faults, sizeof faults, end, GIRUVE_RUN_ANSWER));
}

/* ---- 2. Recovery */

static const char *const refusals[] = {
    [GIRUVE_REFUSED_AREAS] = "the model, or the length of an area, is wrong",
    [GIRUVE_REFUSED_REPORT] = "the report is not well formed",
    [GIRUVE_REFUSED_EXTENT] = "the extent is not on a pack of the model",
    [GIRUVE_REFUSED_ROW] = "the sense bytes name no error of the table",
    [GIRUVE_REFUSED_ACTION] = "the action for this error is not built",
    [GIRUVE_REFUSED_FORMAT] = "the sense bytes have another format",
    [GIRUVE_REFUSED_AGREEMENT] = "report and chain do not agree",
};
static const char *const answers[] = {
    [GIRUVE_ANSWER_ACTION_1] = "the error is permanent, tell the operator",
    [GIRUVE_ANSWER_ACTION_2] = "give the error back to the program that wanted to read",
    [GIRUVE_ANSWER_REPEAT] = "run the chain again from its start",
    [GIRUVE_ANSWER_CORRECTED_ONLY] = "storage is mended, the chain is not carried on",
    [GIRUVE_ANSWER_FINISHED] = "storage is mended, and the chain was at its end",
    [GIRUVE_ANSWER_RESTART] = "start the restart program",
};
static const char *const actions[] = {
    [GIRUVE_ACTION_NONE] = "none", [GIRUVE_ACTION_5] = "5", [GIRUVE_ACTION_5A] = "5A", [GIRUVE_ACTION_8] = "8",
    [GIRUVE_ACTION_9] = "9", [GIRUVE_ACTION_10] = "10", [GIRUVE_ACTION_10A] = "10A", [GIRUVE_ACTION_11] = "11",
};

static void show(const char *what, const uint8_t *bytes, size_t length)
{
    printf("  %-10s", what);
    for (size_t i = 0; i < length; i++)
        printf("%02X%s", bytes[i], i + 1 < length ? "" : "\n");
}

/* Appends a tagged field to a report; returns where it ends then. */
static size_t append(uint8_t *report, size_t end, uint8_t tag, const uint8_t *contents, uint8_t length)
{
    const uint8_t head[TAG_AND_LENGTH] = {tag, 0, length};
    memcpy(report + end, head, sizeof head);
    memcpy(report + end + sizeof head, contents, length);
    show("report", report + end, sizeof head + length);
    return end + sizeof head + length;
}

/* Makes a report, and returns its length. NULL stands for no mask set and for no seek made; tries of 0 are left out. */
static size_t make_report(uint8_t report[GIRUVE_REPORT_MAX], const uint8_t *sense, const uint8_t *csw, const uint8_t *first_ccw,
                          const uint8_t *mask, const uint8_t *seek_argument, uint8_t tries)
{
    size_t length = append(report, 0, GIRUVE_TAG_SENSE, sense, GIRUVE_SENSE);
    length = append(report, length, GIRUVE_TAG_CSW, csw, GIRUVE_CSW);
    length = append(report, length, GIRUVE_TAG_FIRST_CCW, first_ccw, FIRST_CCW);
    if (mask != NULL)
        length = append(report, length, GIRUVE_TAG_MASK, mask, MASK);
    if (seek_argument != NULL)
        length = append(report, length, GIRUVE_TAG_SEEK_ARGUMENT, seek_argument, SEEK_ARGUMENT);
    if (tries != 0)
        length = append(report, length, GIRUVE_TAG_TRIES, &tries, sizeof tries);
    return length;
}

/* Carries a chain on from its first ending to its last. Returns whether it came to its end; the CSW says how. */
static int carry_on(ending end, const uint8_t extent[GIRUVE_EXTENT], const uint8_t *seek_argument)
{
    uint8_t *csw = end + GIRUVE_AT_RUN_CSW, *sense = end + GIRUVE_AT_RUN_SENSE, *id = sense + AT_SENSE_ID;
    uint8_t tries = 0, report[GIRUVE_REPORT_MAX], answer[GIRUVE_RECOVERY_ANSWER];
    while (csw[GIRUVE_AT_CSW_UNIT_STATUS] & GIRUVE_UNIT_CHECK) {
        printf("unit check: track %03d/%02d, record %d\n", id[0] * 256 + id[1], id[2] * 256 + id[3], id[4]);
        size_t length = make_report(report, sense, csw, end + GIRUVE_AT_RUN_FIRST_CCW,
                                    end[GIRUVE_AT_RUN_MASK_SET] ? end + GIRUVE_AT_RUN_MASK : NULL, seek_argument, tries);
        uint8_t number = giruve_recover(model, chain, sizeof chain, report, length, extent, GIRUVE_EXTENT, storage, sizeof storage,
                                        program, sizeof program, restart_arguments, sizeof restart_arguments, answer, sizeof answer);
        if (number != GIRUVE_DONE) {
            printf("no recovery, nothing is changed: %s\n", refusals[number]);
            return 0;
        }
        printf("action %s: %s\n", actions[answer[GIRUVE_AT_RECOVERY_ACTION]], answers[answer[GIRUVE_AT_RECOVERY_WHAT]]);
        switch (answer[GIRUVE_AT_RECOVERY_WHAT]) {
        case GIRUVE_ANSWER_RESTART:
            for (size_t i = 0; i < sizeof program; i += CCW)
                printf("  %04zX      %02X %02X%02X%02X %02X %02X %02X%02X\n", GIRUVE_PROGRAM_ADDRESS + i, program[i], program[i + 1],
                       program[i + 2], program[i + 3], program[i + 4], program[i + 5], program[i + 6], program[i + 7]);
            show("arguments", restart_arguments, sizeof restart_arguments);
            start_restart(end);
            seek_argument = restart_arguments; /* which begin with that of the last seek made */
            tries = 0;
            break;
        case GIRUVE_ANSWER_REPEAT:
            start_chain(end, sizeof faults);
            tries++;
            break;
        case GIRUVE_ANSWER_FINISHED:
            memcpy(csw, answer + GIRUVE_AT_RECOVERY_CSW, GIRUVE_CSW);
            return 1;
        default: /* GIRUVE_ANSWER_CORRECTED_ONLY, GIRUVE_ANSWER_ACTION_1, GIRUVE_ANSWER_ACTION_2 */
            return 0;
        }
    }
    return 1;
}

/* ---- 3. The reading */

int main(void)
{
    static const uint8_t extent[GIRUVE_EXTENT] = {0, 0, 0, 1, 0, 0, 0, 1}; /* track 000/01 alone */
    ending end, faultless;
    uint8_t read[STORAGE];
    start_chain(end, sizeof faults);
    if (!carry_on(end, extent, arguments))
        return EXIT_FAILURE;
    show("CSW", end + GIRUVE_AT_RUN_CSW, GIRUVE_CSW);
    show("storage", storage, sizeof storage);
    memcpy(read, storage, sizeof read);
    memset(storage, 0, sizeof storage);
    start_chain(faultless, 0);
    int same = memcmp(end + GIRUVE_AT_RUN_CSW, faultless + GIRUVE_AT_RUN_CSW, GIRUVE_CSW) == 0 && memcmp(read, storage, sizeof read) == 0;
    printf("a run without faults has %s CSW and storage\n", same ? "the same" : "another");
    return same ? EXIT_SUCCESS : EXIT_FAILURE;
}
