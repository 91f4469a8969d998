/*
 * A track of the last cylinder of a model 11 pack, 814, of which the first record is faulted: how image, extent and reading are answered for each
 * model, and what the reading comes to.
 */
#include <stdio.h>

#include "giruve.h"

/* seek, search ID equal, TIC to the search, two read data */
static const uint8_t chain[] = {
    0x07, 0, 0, 0x00, 0x40, 0, 0, 6, 0x31, 0, 0, 0x06, 0x40, 0, 0, 5, 0x08, 0, 0, 0x08, 0x00, 0, 0, 0,
    0x06, 0, 0, 0x00, 0x40, 0, 0, 4, 0x06, 0, 0, 0x04, 0x00, 0, 0, 4,
};

/* the seek address of track 814/18 (032E hexadecimal is 814), then the ID of its record 1 */
static const uint8_t arguments[] = {0, 0, 0x03, 0x2E, 0, 18, 0x03, 0x2E, 0, 18, 1};

/* that track alone */
static const uint8_t extent[GIRUVE_EXTENT] = {0x03, 0x2E, 0, 18, 0x03, 0x2E, 0, 18};

/* its home address, and records 0 to 2; a fault of record 1 */
static const uint8_t image[] = {
    0x01, 0, 5, 0, 0x03, 0x2E, 0, 18,
    0x02, 0, 16, 0x03, 0x2E, 0, 18, 0, 0, 0, 8, 0, 0, 0, 0, 0, 0, 0, 0,
    0x02, 0, 12, 0x03, 0x2E, 0, 18, 1, 0, 0, 4, 0xC1, 0xC2, 0xC3, 0xC4,
    0x02, 0, 12, 0x03, 0x2E, 0, 18, 2, 0, 0, 4, 0xD1, 0xD2, 0xD3, 0xD4,
};
static const uint8_t faults[] = {0x20, 0, 10, 0x03, 0x2E, 0, 18, 1, 0, 3, 0x00, 0x01, 0x00};

static uint8_t storage[8], program[GIRUVE_PROGRAM], restart_arguments[GIRUVE_RESTART_ARGUMENTS], list[GIRUVE_LIST_MAX];
static uint8_t answer[GIRUVE_READING_ANSWER];

static uint8_t reading(uint8_t model)
{
    return giruve_reading(model, chain, sizeof chain, arguments, sizeof arguments, storage, sizeof storage, image, sizeof image,
                          faults, sizeof faults, extent, sizeof extent, GIRUVE_LIMIT_MAX, program, sizeof program,
                          restart_arguments, sizeof restart_arguments, list, sizeof list, answer, sizeof answer);
}

int main(void)
{
    static const uint8_t models[] = {GIRUVE_MODEL_1, GIRUVE_MODEL_11};
    for (size_t i = 0; i < sizeof models; i++)
        printf("model %d: image %d, extent %d, reading %d\n", models[i], giruve_check_image(models[i], image, sizeof image),
               giruve_check_extent(models[i], extent, sizeof extent), reading(models[i]));
    const uint8_t *cylinder = list + GIRUVE_AT_ENTRY_CYLINDER, *head = list + GIRUVE_AT_ENTRY_HEAD;
    printf("recoveries: %d, of track %03d/%02d, record %d\n", answer[GIRUVE_AT_READING_RECOVERIES + 1], cylinder[0] * 256 + cylinder[1],
           head[0] * 256 + head[1], list[GIRUVE_AT_ENTRY_RECORD]);
    printf("storage: ");
    for (size_t i = 0; i < sizeof storage; i++)
        printf("%02X", storage[i]);
    printf("\n");
    return 0;
}
