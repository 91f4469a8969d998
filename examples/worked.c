/* Reads the example of samples/worked.hex through the library, and prints the lines that the program `reading` prints for it. */
#include <stdio.h>

#include "giruve.h"

/* seek, search ID equal, TIC to the search, two read data */
static const uint8_t chain[] = {
    0x07, 0x00, 0x00, 0x00, 0x40, 0x00, 0x00, 0x06, 0x31, 0x00, 0x00, 0x06, 0x40, 0x00, 0x00, 0x05,
    0x08, 0x00, 0x00, 0x08, 0x00, 0x00, 0x00, 0x00, 0x06, 0x00, 0x00, 0x00, 0x40, 0x00, 0x00, 0x04,
    0x06, 0x00, 0x00, 0x04, 0x00, 0x00, 0x00, 0x04,
};

/* the seek address of track 000/01, then the ID of its R1 */
static const uint8_t arguments[] = {0, 0, 0, 0, 0, 1, 0, 0, 0, 1, 1};

/* track 000/01 alone */
static const uint8_t extent[GIRUVE_EXTENT] = {0, 0, 0, 1, 0, 0, 0, 1};

/* R1 of that track: error displacement 3, pattern 000100 */
static const uint8_t faults[] = {0x20, 0, 10, 0, 0, 0, 1, 1, 0, 3, 0x00, 0x01, 0x00};

/* its home address, R0, R1 and R2 */
static const uint8_t image[] = {
    0x01, 0, 5, 0, 0, 0, 0, 1,
    0x02, 0, 16, 0, 0, 0, 1, 0, 0, 0, 8, 0, 0, 0, 0, 0, 0, 0, 0,
    0x02, 0, 12, 0, 0, 0, 1, 1, 0, 0, 4, 0xC1, 0xC2, 0xC3, 0xC4,
    0x02, 0, 12, 0, 0, 0, 1, 2, 0, 0, 4, 0xD1, 0xD2, 0xD3, 0xD4,
};

static uint8_t storage[4096];
static uint8_t program[GIRUVE_PROGRAM];
static uint8_t restart_arguments[GIRUVE_RESTART_ARGUMENTS];
static uint8_t list[GIRUVE_LIST_MAX];
static uint8_t answer[GIRUVE_READING_ANSWER];

int main(void)
{
    uint8_t number = giruve_reading(GIRUVE_MODEL_1, chain, sizeof chain, arguments, sizeof arguments, storage, sizeof storage,
                                    image, sizeof image, faults, sizeof faults, extent, sizeof extent, GIRUVE_LIMIT_MAX,
                                    program, sizeof program, restart_arguments, sizeof restart_arguments, list, sizeof list, answer, sizeof answer);
    if (number != GIRUVE_DONE && number != GIRUVE_LIMIT && number != GIRUVE_STOPPED) {
        printf("refused %d\n", number);
        return 0;
    }
    const uint8_t *recoveries = answer + GIRUVE_AT_READING_RECOVERIES;
    int made = recoveries[0] * 256 + recoveries[1];
    for (int i = 0; i < made; i++) {
        const uint8_t *entry = list + i * GIRUVE_ENTRY;
        const uint8_t *cylinder = entry + GIRUVE_AT_ENTRY_CYLINDER;
        const uint8_t *head = entry + GIRUVE_AT_ENTRY_HEAD;
        printf("action %s %03d %02d %03d\n", entry[GIRUVE_AT_ENTRY_ACTION] == GIRUVE_ACTION_5A ? "5A" : "5",
               cylinder[0] * 256 + cylinder[1], head[0] * 256 + head[1], entry[GIRUVE_AT_ENTRY_RECORD]);
    }
    if (number == GIRUVE_DONE)
        printf("end");
    else if (number == GIRUVE_LIMIT)
        printf("limit");
    else
        printf("stopped %d", answer[GIRUVE_AT_READING_STOPPED_BY]);
    const uint8_t *csw = answer + GIRUVE_AT_READING_CSW;
    const uint8_t *address = csw + GIRUVE_AT_CSW_ADDRESS;
    const uint8_t *count = csw + GIRUVE_AT_CSW_COUNT;
    printf(" %02X%02X%02X %02X %02X %02X%02X\n", address[0], address[1], address[2], csw[GIRUVE_AT_CSW_UNIT_STATUS],
           csw[GIRUVE_AT_CSW_CHANNEL_STATUS], count[0], count[1]);
    for (int i = 0; i < 16; i++)
        printf("%02X", storage[i]);
    printf("\n");
    return 0;
}
