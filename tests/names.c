/*
 * The names of include/giruve.h, held to what the library does: lengths and limits by what is accepted and what is not, places and codes by
 * what answers hold. Prints each claim that is wrong.
 */
#include <stdio.h>
#include <string.h>

#include "giruve.h"

enum { FIELD = 3, NO_OP = 0x03, READ_DATA = 0x06, SEEK = 0x07, TIC = 0x08, READ_COUNT = 0x12, SET_MASK = 0x1F, CC = 0x40, CCW = GIRUVE_CHAIN_MIN };

static int wrong;
#define HOLDS(claim) ((claim) ? (void)0 : (void)(wrong++, printf("names: wrong: %s\n", #claim)))

/* Track 258/03: R0 without data, R7 of four bytes, R9 without data; a fault of R7. */
static const uint8_t image[] = {
    0x01, 0, 5, 0, 1, 2, 0, 3,
    0x02, 0, 8, 1, 2, 0, 3, 0, 0, 0, 0,
    0x02, 0, 12, 1, 2, 0, 3, 7, 0, 0, 4, 0xA1, 0xA2, 0xA3, 0xA4,
    0x02, 0, 8, 1, 2, 0, 3, 9, 0, 0, 0,
};
static const uint8_t faults[] = {0x20, 0, 10, 1, 2, 0, 3, 7, 0, 4, 1, 2, 3};
static const uint8_t other_fault[] = {0x20, 0, 10, 1, 2, 0, 3, 8, 0, 4, 1, 2, 3};
static const uint8_t whole_pack[GIRUVE_EXTENT + 1] = {0, 0, 0, 0, 0x01, 0x9A, 0, 18, 0};
static const uint8_t one_track[GIRUVE_EXTENT] = {0, 0, 0, 0, 0, 0, 0, 0};
static const uint8_t off_the_pack[GIRUVE_EXTENT] = {0, 0, 0, 0, 0x01, 0x9B, 0, 0};
static const uint8_t whole_model_11[GIRUVE_EXTENT] = {0, 0, 0, 0, 0x03, 0x2E, 0, 18};
static const uint8_t off_model_11[GIRUVE_EXTENT] = {0, 0, 0, 0, 0x03, 0x2F, 0, 0};

/* the seek argument of that track; masks, the second with PCI fetch mode */
static const uint8_t arguments[] = {0, 0, 1, 2, 0, 3, 0x80, 0x01};
static const uint8_t *const seek_argument = arguments, *const mask = arguments + 6, *const pci_mask = arguments + 7;

static uint8_t storage[32], program[GIRUVE_PROGRAM + 1], restart_arguments[GIRUVE_RESTART_ARGUMENTS + 1], list[GIRUVE_LIST_MAX];
static uint8_t chain[4 * CCW], ran[GIRUVE_RUN_ANSWER + 1], answer[GIRUVE_RECOVERY_ANSWER + 1], read[GIRUVE_READING_ANSWER + 1];
static uint8_t report[GIRUVE_REPORT_MAX];
static size_t report_length;

/* of every call below */
static uint8_t model = GIRUVE_MODEL_1;

static void put_ccw(size_t at, uint8_t command, uint8_t address, uint8_t flags, uint8_t count)
{
    const uint8_t ccw[CCW] = {command, 0, 0, address, flags, 0, 0, count};
    memcpy(chain + at * CCW, ccw, sizeof ccw);
}

static uint8_t run(size_t length, size_t faults_length, size_t answer_length)
{
    return giruve_run(model, chain, length, arguments, sizeof arguments, storage, sizeof storage, image, sizeof image, faults, faults_length,
                      GIRUVE_LIMIT_MAX, ran, answer_length);
}

static uint8_t reading(size_t length, const uint8_t *extent, size_t limit, size_t list_length, size_t answer_length)
{
    return giruve_reading(model, chain, length, arguments, sizeof arguments, storage, sizeof storage, image, sizeof image,
                          faults, sizeof faults, extent, GIRUVE_EXTENT, limit, program, GIRUVE_PROGRAM, restart_arguments, GIRUVE_RESTART_ARGUMENTS,
                          list, list_length, read, answer_length);
}

static void append(uint8_t tag, const uint8_t *contents, uint8_t length)
{
    const uint8_t head[FIELD] = {tag, 0, length};
    memcpy(report + report_length, head, sizeof head);
    memcpy(report + report_length + sizeof head, contents, length);
    report_length += sizeof head + length;
}

/* A report; mask and seek argument may be NULL. */
static void make_report(const uint8_t *sense, const uint8_t *csw, const uint8_t *first, const uint8_t *set_mask, const uint8_t *seek, int tries)
{
    const uint8_t made = (uint8_t)tries;
    report_length = 0;
    append(GIRUVE_TAG_SENSE, sense, GIRUVE_SENSE);
    append(GIRUVE_TAG_CSW, csw, GIRUVE_CSW);
    append(GIRUVE_TAG_FIRST_CCW, first, 2);
    if (set_mask != NULL)
        append(GIRUVE_TAG_MASK, set_mask, 1);
    if (seek != NULL)
        append(GIRUVE_TAG_SEEK_ARGUMENT, seek, 6);
    if (tries != 0)
        append(GIRUVE_TAG_TRIES, &made, 1);
}

static uint8_t recover(size_t length, const uint8_t *extent, size_t answer_length)
{
    return giruve_recover(model, chain, length, report, report_length, extent, GIRUVE_EXTENT, storage, sizeof storage, program, GIRUVE_PROGRAM,
                          restart_arguments, GIRUVE_RESTART_ARGUMENTS, answer, answer_length);
}

/* Whether recovery from the report of sense bytes 0 to 2, at the second of the chain's CCWs, answers this. */
static int answers(int sense_0, int sense_1, int sense_2, const uint8_t *seek, int tries, uint8_t what, uint8_t action)
{
    const uint8_t sense[GIRUVE_SENSE] = {(uint8_t)sense_0, (uint8_t)sense_1, (uint8_t)sense_2};
    const uint8_t csw[GIRUVE_CSW] = {0, 0, 0, 2 * CCW, GIRUVE_CHANNEL_END | GIRUVE_DEVICE_END | GIRUVE_UNIT_CHECK, 0, 0, 0};
    const uint8_t first[] = {0, 0};
    make_report(sense, csw, first, NULL, seek, tries);
    return recover(sizeof chain, whole_pack, GIRUVE_RECOVERY_ANSWER) == GIRUVE_DONE && answer[GIRUVE_AT_RECOVERY_WHAT] == what
           && answer[GIRUVE_AT_RECOVERY_ACTION] == action;
}

static int accepts(size_t chain_length, size_t arguments_length, size_t storage_length, size_t image_length, size_t faults_length, size_t limit)
{
    uint8_t number = giruve_check_areas(chain_length, arguments_length, storage_length, image_length, faults_length, limit);
    return number == GIRUVE_DONE ? 1 : number == GIRUVE_REFUSED_AREAS ? 0 : -1;
}

static void lengths(void)
{
    HOLDS(accepts(GIRUVE_CHAIN_MIN, 0, 0, 0, 0, GIRUVE_LIMIT_MIN) == 1 && accepts(GIRUVE_CHAIN_MIN / 2, 0, 0, 0, 0, GIRUVE_LIMIT_MIN) == 0);
    HOLDS(accepts(GIRUVE_CHAIN_MAX, 0, 0, 0, 0, GIRUVE_LIMIT_MAX) == 1);
    HOLDS(accepts(GIRUVE_CHAIN_MAX + GIRUVE_CHAIN_MIN, 0, 0, 0, 0, GIRUVE_LIMIT_MAX) == 0);
    HOLDS(accepts(GIRUVE_CHAIN_MIN, GIRUVE_ARGUMENTS_MAX, GIRUVE_STORAGE_MAX, GIRUVE_IMAGE_MAX, GIRUVE_FAULTS_MAX, GIRUVE_LIMIT_MAX) == 1);
    HOLDS(accepts(GIRUVE_CHAIN_MIN, GIRUVE_ARGUMENTS_MAX + 1, 0, 0, 0, GIRUVE_LIMIT_MAX) == 0);
    HOLDS(accepts(GIRUVE_CHAIN_MIN, 0, GIRUVE_STORAGE_MAX + 1, 0, 0, GIRUVE_LIMIT_MAX) == 0);
    HOLDS(accepts(GIRUVE_CHAIN_MIN, 0, 0, GIRUVE_IMAGE_MAX + 1, 0, GIRUVE_LIMIT_MAX) == 0);
    HOLDS(accepts(GIRUVE_CHAIN_MIN, 0, 0, 0, GIRUVE_FAULTS_MAX + 1, GIRUVE_LIMIT_MAX) == 0);
    HOLDS(accepts(GIRUVE_CHAIN_MIN, 0, 0, 0, 0, GIRUVE_LIMIT_MIN - 1) == 0 && accepts(GIRUVE_CHAIN_MIN, 0, 0, 0, 0, GIRUVE_LIMIT_MAX + 1) == 0);
    HOLDS(giruve_check_restart_areas(GIRUVE_PROGRAM, GIRUVE_RESTART_ARGUMENTS) == GIRUVE_DONE);
    HOLDS(giruve_check_extent(model, whole_pack, GIRUVE_EXTENT) == GIRUVE_DONE);
    HOLDS(giruve_check_extent(model, whole_pack, GIRUVE_EXTENT + 1) == GIRUVE_REFUSED_AREAS);
    put_ccw(0, NO_OP, 0, 0, 1);
    HOLDS(run(CCW, 0, GIRUVE_RUN_ANSWER) == GIRUVE_DONE && run(CCW, 0, GIRUVE_RUN_ANSWER + 1) == GIRUVE_REFUSED_AREAS);
    HOLDS(reading(CCW, whole_pack, GIRUVE_LIMIT_MAX, GIRUVE_LIST_MAX, GIRUVE_READING_ANSWER) == GIRUVE_DONE);
    HOLDS(reading(CCW, whole_pack, GIRUVE_LIMIT_MAX, GIRUVE_LIST_MAX, GIRUVE_READING_ANSWER + 1) == GIRUVE_REFUSED_AREAS);
    HOLDS(reading(CCW, whole_pack, GIRUVE_LIMIT_MAX, GIRUVE_LIST_MAX - 1, GIRUVE_READING_ANSWER) == GIRUVE_REFUSED_AREAS);
    HOLDS(reading(CCW, whole_pack, 1, GIRUVE_ENTRY, GIRUVE_READING_ANSWER) == GIRUVE_DONE);
    HOLDS(reading(CCW, whole_pack, 1, GIRUVE_ENTRY - 1, GIRUVE_READING_ANSWER) == GIRUVE_REFUSED_AREAS);
}

/* The run of a chain, and whether it ends with these statuses and this count left. */
static int ends(size_t length, int unit, int channel, int count)
{
    const uint8_t *csw = ran + GIRUVE_AT_RUN_CSW;
    return run(length, 0, GIRUVE_RUN_ANSWER) == GIRUVE_DONE && csw[GIRUVE_AT_CSW_UNIT_STATUS] == unit
           && csw[GIRUVE_AT_CSW_CHANNEL_STATUS] == channel && csw[GIRUVE_AT_CSW_COUNT + 1] == count && csw[GIRUVE_AT_CSW_ADDRESS + 2] == length;
}

static void statuses(void)
{
    const int ended = GIRUVE_CHANNEL_END | GIRUVE_DEVICE_END;
    put_ccw(0, SEEK, 0, CC, 6);
    put_ccw(1, READ_DATA, 0, 0, 4);
    HOLDS(ends(2 * CCW, ended, 0, 0));
    put_ccw(1, READ_DATA, 0, 0, 9);
    HOLDS(ends(2 * CCW, ended, GIRUVE_INCORRECT_LENGTH, 9 - 4));
    put_ccw(1, READ_DATA, sizeof storage, 0, 4);
    HOLDS(ends(2 * CCW, 0, GIRUVE_PROGRAM_CHECK, 0));
    put_ccw(1, READ_DATA, 0, CC, 4);
    put_ccw(2, READ_DATA, 0, 0, 4);
    HOLDS(ends(3 * CCW, ended | GIRUVE_UNIT_EXCEPTION, GIRUVE_INCORRECT_LENGTH, 4));
    put_ccw(1, SEEK, 0, 0, 5);
    HOLDS(ends(2 * CCW, ended | GIRUVE_UNIT_CHECK, 0, 5) && ran[GIRUVE_AT_RUN_SENSE] == 0x80);
    HOLDS(GIRUVE_CHANNEL_END == 2 * GIRUVE_DEVICE_END);
}

/* How many commands a run has begun that reads counts of a track of 255 records, R1 to R255 in this order: modulo 255. */
static int begun(void)
{
    return storage[4] % 255;
}

static void limits(void)
{
    enum { RECORDS = 255, RECORD = FIELD + 8 };
    static uint8_t track[FIELD + 5 + (RECORDS + 1) * RECORD] = {0x01, 0, 5};
    for (int r = 0; r <= RECORDS; r++) {
        const uint8_t record[RECORD] = {0x02, 0, 8, 0, 0, 0, 0, (uint8_t)r};
        memcpy(track + FIELD + 5 + r * RECORD, record, sizeof record);
    }
    put_ccw(0, READ_COUNT, 0, CC, 8);
    put_ccw(1, TIC, 0, 0, 0);
    HOLDS(giruve_run(model, chain, 2 * CCW, arguments, 0, storage, sizeof storage, track, sizeof track, faults, 0, GIRUVE_LIMIT_MAX, ran,
                     GIRUVE_RUN_ANSWER) == GIRUVE_LIMIT);
    HOLDS(begun() == GIRUVE_LIMIT_MAX % RECORDS);
    memset(program, 0, sizeof program);
    memcpy(program, chain, 2 * CCW);
    program[CCW + 2] = GIRUVE_PROGRAM_ADDRESS >> 8;
    HOLDS(giruve_run_restart(model, chain, 2 * CCW, arguments, 0, program, GIRUVE_PROGRAM, restart_arguments, GIRUVE_RESTART_ARGUMENTS,
                             storage, sizeof storage, track, sizeof track, faults, 0, ran, GIRUVE_RUN_ANSWER) == GIRUVE_LIMIT);
    HOLDS(begun() == GIRUVE_RESTART_LIMIT % RECORDS && GIRUVE_RESTART_LIMIT == 2 * GIRUVE_LIMIT_MAX);
}

/* A chain whose read of R7 is cut: set mask, seek, read, and one command more. */
static void cut_chain(const uint8_t *of_mask, uint8_t flags, uint8_t next)
{
    put_ccw(0, SET_MASK, (uint8_t)(of_mask - arguments), CC, 1);
    put_ccw(1, SEEK, 0, CC, 6);
    put_ccw(2, READ_DATA, 0, flags, 4);
    put_ccw(3, next, 0, 0, 1);
}

/* Runs that chain to its cut, and recovers from it. */
static uint8_t recover_from_cut(size_t length, const uint8_t *extent)
{
    HOLDS(run(length, sizeof faults, GIRUVE_RUN_ANSWER) == GIRUVE_DONE && ran[GIRUVE_AT_RUN_MASK_SET] == 1);
    make_report(ran + GIRUVE_AT_RUN_SENSE, ran + GIRUVE_AT_RUN_CSW, ran + GIRUVE_AT_RUN_FIRST_CCW, ran + GIRUVE_AT_RUN_MASK, seek_argument, 1);
    HOLDS(report_length == GIRUVE_REPORT_MAX);
    return recover(length, extent, GIRUVE_RECOVERY_ANSWER);
}

static int answered(uint8_t what, uint8_t action)
{
    return answer[GIRUVE_AT_RECOVERY_WHAT] == what && answer[GIRUVE_AT_RECOVERY_ACTION] == action;
}

/* Whether recovery answers this to the report of a read of four bytes, the third of the chain's CCWs, interrupted behind three of them. */
static int interrupted(int sense_1, uint8_t action)
{
    const uint8_t sense[GIRUVE_SENSE] = {[1] = (uint8_t)sense_1, [3] = READ_DATA, [17] = 3};
    const uint8_t csw[GIRUVE_CSW] = {0, 0, 0, 3 * CCW, GIRUVE_CHANNEL_END | GIRUVE_DEVICE_END | GIRUVE_UNIT_CHECK, 0, 0, 1};
    const uint8_t first[] = {0, 2 * CCW};
    make_report(sense, csw, first, NULL, seek_argument, 0);
    return recover(sizeof chain, whole_pack, GIRUVE_RECOVERY_ANSWER) == GIRUVE_DONE && answered(GIRUVE_ANSWER_RESTART, action);
}

static void recoveries(void)
{
    cut_chain(mask, CC, NO_OP);
    HOLDS(recover_from_cut(sizeof chain, whole_pack) == GIRUVE_DONE && answered(GIRUVE_ANSWER_RESTART, GIRUVE_ACTION_5A));
    HOLDS(program[1] == 0 && program[2] == GIRUVE_RESTART_ARGUMENTS_ADDRESS >> 8 && program[3] == (GIRUVE_RESTART_ARGUMENTS_ADDRESS & 0xFF));
    HOLDS(program[4 * CCW] == TIC && program[4 * CCW + 2] * 256 + program[4 * CCW + 3] == GIRUVE_PROGRAM_ADDRESS + 3 * CCW);
    HOLDS(ran[GIRUVE_AT_RUN_MASK] == *mask && ran[GIRUVE_AT_RUN_FIRST_CCW + 1] == 2 * CCW);
    HOLDS(recover(sizeof chain, whole_pack, GIRUVE_RECOVERY_ANSWER + 1) == GIRUVE_REFUSED_AREAS);
    HOLDS(recover_from_cut(sizeof chain, one_track) == GIRUVE_DONE && answered(GIRUVE_ANSWER_ACTION_2, GIRUVE_ACTION_NONE));
    cut_chain(mask, CC, 0x1E);
    HOLDS(recover_from_cut(sizeof chain, whole_pack) == GIRUVE_DONE && answered(GIRUVE_ANSWER_RESTART, GIRUVE_ACTION_5));
    cut_chain(pci_mask, CC, NO_OP);
    HOLDS(recover_from_cut(sizeof chain, whole_pack) == GIRUVE_DONE && answered(GIRUVE_ANSWER_CORRECTED_ONLY, GIRUVE_ACTION_5));
    cut_chain(mask, 0, NO_OP);
    HOLDS(recover_from_cut(sizeof chain, whole_pack) == GIRUVE_DONE && answered(GIRUVE_ANSWER_FINISHED, GIRUVE_ACTION_5));
    HOLDS(answer[GIRUVE_AT_RECOVERY_CSW + GIRUVE_AT_CSW_UNIT_STATUS] == (GIRUVE_CHANNEL_END | GIRUVE_DEVICE_END));
    HOLDS(answers(0x08, 0x80, 0x40, NULL, 0, GIRUVE_ANSWER_ACTION_1, GIRUVE_ACTION_NONE));
    HOLDS(answers(0x10, 0, 0, NULL, 9, GIRUVE_ANSWER_REPEAT, GIRUVE_ACTION_NONE));
    HOLDS(answers(0x10, 0, 0, NULL, 10, GIRUVE_ANSWER_ACTION_1, GIRUVE_ACTION_NONE));
    HOLDS(answers(0, 0x20, 0, seek_argument, 0, GIRUVE_ANSWER_RESTART, GIRUVE_ACTION_8));
    HOLDS(answers(0, 0x04, 0, seek_argument, 0, GIRUVE_ANSWER_RESTART, GIRUVE_ACTION_10));
    put_ccw(1, NO_OP, 0, CC, 1);
    HOLDS(answers(0, 0x04, 0, seek_argument, 0, GIRUVE_ANSWER_RESTART, GIRUVE_ACTION_10A));
    HOLDS(interrupted(0x21, GIRUVE_ACTION_9) && interrupted(0x05, GIRUVE_ACTION_11));
}

static void refusals(void)
{
    enum { AT_SENSE = FIELD, AT_FORMAT = FIELD + 7 };
    HOLDS(giruve_check_image(model, image, sizeof image) == GIRUVE_DONE && giruve_check_image(model, image, 1) == GIRUVE_REFUSED_IMAGE);
    HOLDS(giruve_check_faults(model, image, sizeof image, other_fault, sizeof other_fault) == GIRUVE_REFUSED_FAULTS);
    HOLDS(giruve_check_extent(model, off_the_pack, GIRUVE_EXTENT) == GIRUVE_REFUSED_EXTENT);
    cut_chain(mask, CC, NO_OP);
    HOLDS(recover_from_cut(sizeof chain, off_the_pack) == GIRUVE_REFUSED_EXTENT);
    report[AT_FORMAT] = 0;
    HOLDS(recover(sizeof chain, whole_pack, GIRUVE_RECOVERY_ANSWER) == GIRUVE_REFUSED_FORMAT);
    report[AT_SENSE + 1] = 0x01;
    HOLDS(recover(sizeof chain, whole_pack, GIRUVE_RECOVERY_ANSWER) == GIRUVE_REFUSED_ACTION);
    memset(report + AT_SENSE, 0, GIRUVE_SENSE);
    HOLDS(recover(sizeof chain, whole_pack, GIRUVE_RECOVERY_ANSWER) == GIRUVE_REFUSED_ROW);
    report_length--;
    HOLDS(recover(sizeof chain, whole_pack, GIRUVE_RECOVERY_ANSWER) == GIRUVE_REFUSED_REPORT);
    HOLDS(recover_from_cut(3 * CCW, whole_pack) == GIRUVE_REFUSED_AGREEMENT);
}

static void readings(void)
{
    static const uint8_t entry[GIRUVE_ENTRY] = {
        [GIRUVE_AT_ENTRY_ACTION] = GIRUVE_ACTION_5A, [GIRUVE_AT_ENTRY_CYLINDER] = 1, [GIRUVE_AT_ENTRY_CYLINDER + 1] = 2,
        [GIRUVE_AT_ENTRY_HEAD + 1] = 3, [GIRUVE_AT_ENTRY_RECORD] = 7,
    };
    cut_chain(mask, CC, NO_OP);
    HOLDS(reading(sizeof chain, whole_pack, GIRUVE_LIMIT_MAX, GIRUVE_LIST_MAX, GIRUVE_READING_ANSWER) == GIRUVE_DONE);
    HOLDS(memcmp(list, entry, sizeof entry) == 0 && read[GIRUVE_AT_READING_RECOVERIES + 1] == 1 && read[GIRUVE_AT_READING_STOPPED_BY] == 0);
    HOLDS(read[GIRUVE_AT_READING_CSW + GIRUVE_AT_CSW_ADDRESS + 2] == sizeof chain);
    HOLDS(reading(sizeof chain, one_track, GIRUVE_LIMIT_MAX, GIRUVE_LIST_MAX, GIRUVE_READING_ANSWER) == GIRUVE_STOPPED);
    HOLDS(read[GIRUVE_AT_READING_STOPPED_BY] == GIRUVE_ANSWER_ACTION_2 && read[GIRUVE_AT_READING_RECOVERIES + 1] == 0);
    HOLDS(reading(3 * CCW, whole_pack, GIRUVE_LIMIT_MAX, GIRUVE_LIST_MAX, GIRUVE_READING_ANSWER) == GIRUVE_STOPPED);
    HOLDS(read[GIRUVE_AT_READING_STOPPED_BY] == GIRUVE_REFUSED_AGREEMENT);
}

/* The last cylinder of each model; and of all numbers those that are models, by every call. */
static void models(void)
{
    HOLDS(giruve_check_extent(GIRUVE_MODEL_1, whole_pack, GIRUVE_EXTENT) == GIRUVE_DONE);
    HOLDS(giruve_check_extent(GIRUVE_MODEL_1, off_the_pack, GIRUVE_EXTENT) == GIRUVE_REFUSED_EXTENT);
    HOLDS(giruve_check_extent(GIRUVE_MODEL_11, whole_model_11, GIRUVE_EXTENT) == GIRUVE_DONE);
    HOLDS(giruve_check_extent(GIRUVE_MODEL_11, off_model_11, GIRUVE_EXTENT) == GIRUVE_REFUSED_EXTENT);
    cut_chain(mask, CC, NO_OP);
    HOLDS(recover_from_cut(sizeof chain, whole_pack) == GIRUVE_DONE);
    for (int number = 0; number <= UINT8_MAX; number++) {
        const int expected = number == GIRUVE_MODEL_1 || number == GIRUVE_MODEL_11 ? GIRUVE_DONE : GIRUVE_REFUSED_AREAS;
        model = (uint8_t)number;
        HOLDS(giruve_check_image(model, image, sizeof image) == expected);
        HOLDS(giruve_check_faults(model, image, sizeof image, faults, sizeof faults) == expected);
        HOLDS(giruve_check_extent(model, whole_pack, GIRUVE_EXTENT) == expected);
        HOLDS(run(sizeof chain, sizeof faults, GIRUVE_RUN_ANSWER) == expected);
        HOLDS(recover(sizeof chain, whole_pack, GIRUVE_RECOVERY_ANSWER) == expected);
        HOLDS(giruve_run_restart(model, chain, sizeof chain, arguments, sizeof arguments, program, GIRUVE_PROGRAM, restart_arguments,
                                 GIRUVE_RESTART_ARGUMENTS, storage, sizeof storage, image, sizeof image, faults, sizeof faults, ran,
                                 GIRUVE_RUN_ANSWER) == expected);
        HOLDS(reading(sizeof chain, whole_pack, GIRUVE_LIMIT_MAX, GIRUVE_LIST_MAX, GIRUVE_READING_ANSWER) == expected);
    }
    model = GIRUVE_MODEL_1;
}

int main(void)
{
    models();
    lengths();
    statuses();
    limits();
    recoveries();
    refusals();
    readings();
    printf("names: %d wrong\n", wrong);
    return wrong != 0;
}
