/* The example of the crate, from C: lowers P1 of document 01 and prints what the program lower prints for it. */

#include <stdio.h>
#include <tulgarent.h>

static const uint32_t signature[] = {0x01000004, 0x01000001, 0x01000000, 0x01000001,
                                     0x01000002, 0x01000000, 0x01000001, 0x01000000};

static const uint32_t rule[] = {0x04002001, 0x08000002, 0x40000002, 0x10010001, 0x40000001, 0x08000002, 0x40000003,
                                0x10010001, 0x40000001, 0x02000002, 0x10030001, 0x40000001, 0x40000003};

static uint32_t counters[4];
static uint32_t output[TULGARENT_ROOM_TO_LOWER(sizeof rule / 4)];
static uint32_t scratch[TULGARENT_SCRATCH_WORDS];

int main(void) {
    struct tulgarent_answer answer = tulgarent_lower(
        (const uint8_t *)signature, sizeof signature, (const uint8_t *)rule, sizeof rule, (uint8_t *)counters,
        sizeof counters, (uint8_t *)output, sizeof output, (uint8_t *)scratch, TULGARENT_SCRATCH_BYTES);
    if (answer.number != TULGARENT_ACCEPTED) {
        printf("refused %u %u\n", (unsigned)answer.number, (unsigned)answer.place);
        return 1;
    }
    printf("ok %u %u %u\n", (unsigned)answer.words, (unsigned)answer.replacements, (unsigned)answer.passes);
    for (uint64_t i = 0; i < answer.words; i++) {
        printf("%08x\n", (unsigned)output[i]);
    }
    return 0;
}
