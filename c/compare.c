/* compare.c: two report packets compared through the C boundary, by plain comparisons. */
#include <string.h>

#include "check.h"

#define NUMBERS NUVASKOE_DIFFERENCE_NUMBERS
#define HELD 7

/* P12: one effective loss block, source 2, index 37,448. */
static const uint8_t p12[20] = {
    0x80, 0xCF, 0x00, 0x04, 0x00, 0x00, 0x00, 0x01,
    0xF0, 0x00, 0x00, 0x02, 0x00, 0x00, 0x00, 0x02, 0x92, 0x48, 0x00, 0x00
};

/* A discard block of source 5, its measurement, an unknown block, and P12's block. */
static const uint8_t four[68] = {
    0x80, 0xCF, 0x00, 0x10, 0x00, 0x00, 0x00, 0x01,
    0x12, 0x40, 0x00, 0x02, 0x00, 0x00, 0x00, 0x05, 0x80, 0x00, 0xFF, 0xFF,
    0x0E, 0x00, 0x00, 0x07, 0x00, 0x00, 0x00, 0x05, 0x00, 0x00, 0x00, 0x00, 0x00, 0x00, 0x00, 0x00,
    0x00, 0x00, 0x00, 0x00, 0x00, 0x00, 0x00, 0x00, 0x00, 0x00, 0x00, 0x00, 0x00, 0x00, 0x00, 0x00,
    0x09, 0x00, 0x00, 0x00,
    0xF0, 0x00, 0x00, 0x02, 0x00, 0x00, 0x00, 0x02, 0x92, 0x48, 0x00, 0x00
};

/* A block 241: source 2, packets 65,535 to 1, one transport stream, and counts of 1 to 8. */
static const uint8_t streams[56] = {
    0x80, 0xCF, 0x00, 0x0D, 0x00, 0x00, 0x00, 0x01,
    0xF1, 0x00, 0x00, 0x0B, 0x00, 0x00, 0x00, 0x02, 0xFF, 0xFF, 0x00, 0x02, 0x00, 0x00, 0x00, 0x01,
    0x00, 0x00, 0x00, 0x01, 0x00, 0x00, 0x00, 0x02, 0x00, 0x00, 0x00, 0x03, 0x00, 0x00, 0x00, 0x04,
    0x00, 0x00, 0x00, 0x05, 0x00, 0x00, 0x00, 0x06, 0x00, 0x00, 0x00, 0x07, 0x00, 0x00, 0x00, 0x08
};

/* Room for eight differences and three numbers more, and what it holds before a call. */
static uint32_t out[8 * NUMBERS + 3];

static void hold(void)
{
    size_t i;
    for (i = 0; i < sizeof out / sizeof out[0]; i++) {
        out[i] = HELD;
    }
}

/* The numbers from number `from` on are as they were. */
static int held_from(size_t from)
{
    size_t i;
    for (i = from; i < sizeof out / sizeof out[0]; i++) {
        if (out[i] != HELD) {
            return 0;
        }
    }
    return 1;
}

/* Difference number `index` of the list. */
static int is(size_t index, uint32_t kind, uint32_t block, uint32_t field, uint32_t first, uint32_t second)
{
    const uint32_t *entry = out + index * NUMBERS;
    return entry[0] == kind && entry[1] == block && entry[2] == field && entry[3] == first && entry[4] == second;
}

/* Two packets with so many differences, written into a list with more room. */
static int differ(const uint8_t *first, size_t first_len, const uint8_t *second, size_t second_len, size_t differences)
{
    nuvaskoe_compared compared;
    hold();
    compared = nuvaskoe_packet_compare(first, first_len, second, second_len, out, sizeof out / sizeof out[0]);
    return compared.refusal.number == NUVASKOE_OK && compared.refusal.place == 0 &&
           compared.differences == differences && held_from(differences * NUMBERS);
}

/* Refused so, with so much room: no number is written. */
static int refused(const uint8_t *first, size_t first_len, const uint8_t *second, size_t second_len, size_t room,
                   uint32_t number, size_t place)
{
    nuvaskoe_compared compared;
    hold();
    compared = nuvaskoe_packet_compare(first, first_len, second, second_len, out, room);
    return compared.refusal.number == number && compared.refusal.place == place && compared.differences == 0 && held_from(0);
}

/* A packet with itself, with the same bytes elsewhere, and with other reserved bits. */
static void check_equal(void)
{
    uint8_t other[sizeof four];

    memcpy(other, four, sizeof other);
    CHECK(differ(four, sizeof four, four, sizeof four, 0));
    CHECK(differ(four, sizeof four, other, sizeof other, 0));
    other[0] = 0x9F; /* the packet's five */
    other[9] = 0x7F; /* six under the discard block's flag */
    other[21] = 0xFF; /* the measurement's type-specific byte, and sixteen before its first sequence number */
    other[28] = other[29] = 0xFF;
    other[57] = 0xFF; /* the effective loss block's type-specific byte, and its last sixteen */
    other[66] = other[67] = 0xFF;
    CHECK(differ(four, sizeof four, other, sizeof other, 0));
}

static void check_kinds(void)
{
    uint8_t other[sizeof four];

    /* The sender, then the flag and the gap rate of block 0, then all of block 2, then the index of block 3. */
    memcpy(other, four, sizeof other);
    other[7] = 9;
    other[9] = 0x80;
    other[18] = 0;
    other[53] = 1;
    other[65] = 0x49;
    CHECK(differ(four, sizeof four, other, sizeof other, 5));
    CHECK(is(0, NUVASKOE_DIFFERENCE_SENDER, 0, 0, 1, 9));
    CHECK(is(1, NUVASKOE_DIFFERENCE_FIELD, 0, 0, 1, 2));
    CHECK(is(2, NUVASKOE_DIFFERENCE_FIELD, 0, 3, 65535, 255));
    CHECK(is(3, NUVASKOE_DIFFERENCE_BLOCK, 2, 0, 0, 0));
    CHECK(is(4, NUVASKOE_DIFFERENCE_FIELD, 3, 1, 37448, 37449));

    /* Blocks are paired by index: P12's stands beside the discard block. */
    CHECK(differ(four, sizeof four, p12, sizeof p12, 4));
    CHECK(is(0, NUVASKOE_DIFFERENCE_BLOCK, 0, 0, 0, 0));
    CHECK(is(1, NUVASKOE_DIFFERENCE_ONLY_FIRST, 1, 0, 0, 0));
    CHECK(is(2, NUVASKOE_DIFFERENCE_ONLY_FIRST, 2, 0, 0, 0));
    CHECK(is(3, NUVASKOE_DIFFERENCE_ONLY_FIRST, 3, 0, 0, 0));
    CHECK(differ(p12, sizeof p12, four, sizeof four, 4));
    CHECK(is(0, NUVASKOE_DIFFERENCE_BLOCK, 0, 0, 0, 0));
    CHECK(is(1, NUVASKOE_DIFFERENCE_ONLY_SECOND, 1, 0, 0, 0));
    CHECK(is(2, NUVASKOE_DIFFERENCE_ONLY_SECOND, 2, 0, 0, 0));
    CHECK(is(3, NUVASKOE_DIFFERENCE_ONLY_SECOND, 3, 0, 0, 0));
}

/* The packets that a block 241 covers are no field here, so those after its end have numbers one lower than in a reading. */
static void check_streams(void)
{
    uint8_t other[sizeof streams];

    memcpy(other, streams, sizeof other);
    other[9] = 0xFF; /* reserved */
    other[15] = 3;
    other[19] = 4;
    other[23] = 2;
    other[27] = 9;
    other[55] = 0;
    CHECK(differ(streams, sizeof streams, other, sizeof other, 5));
    CHECK(is(0, NUVASKOE_DIFFERENCE_FIELD, 0, NUVASKOE_FIELD_STREAMS_SOURCE, 2, 3));
    CHECK(is(1, NUVASKOE_DIFFERENCE_FIELD, 0, NUVASKOE_FIELD_STREAMS_END, 2, 4));
    CHECK(is(2, NUVASKOE_DIFFERENCE_FIELD, 0, NUVASKOE_FIELD_STREAMS_STREAMS - 1, 1, 2));
    CHECK(is(3, NUVASKOE_DIFFERENCE_FIELD, 0, NUVASKOE_FIELD_STREAMS_SYNC_LOSSES - 1, 1, 9));
    CHECK(is(4, NUVASKOE_DIFFERENCE_FIELD, 0, NUVASKOE_FIELD_STREAMS_PTS_ERRORS - 1, 8, 0));
}

/* The same discard block, which only the first packet measures. */
static void check_measured(void)
{
    uint8_t other[sizeof four];

    memcpy(other, four, sizeof other);
    other[27] = 6;
    CHECK(differ(four, sizeof four, other, sizeof other, 2));
    CHECK(is(0, NUVASKOE_DIFFERENCE_BLOCK, 0, 0, 0, 0));
    CHECK(is(1, NUVASKOE_DIFFERENCE_FIELD, 1, 0, 5, 6));
}

static void check_refusals(void)
{
    uint8_t past[sizeof four];
    uint8_t padded[sizeof p12];

    memcpy(past, four, sizeof past);
    past[59] = 3;
    memcpy(padded, p12, sizeof padded);
    padded[0] = 0xA0;
    CHECK(refused(past, sizeof past, p12, sizeof p12, 40, NUVASKOE_REFUSAL_BLOCK_PAST_END, 56));
    CHECK(refused(p12, sizeof p12, past, sizeof past, 40, NUVASKOE_REFUSAL_BLOCK_PAST_END, 56));

    /* The first packet's comes first, whichever number it has. */
    CHECK(refused(past, sizeof past, padded, sizeof padded, 40, NUVASKOE_REFUSAL_BLOCK_PAST_END, 56));
    CHECK(refused(padded, sizeof padded, past, sizeof past, 40, NUVASKOE_REFUSAL_PADDING, 0));
    CHECK(refused(p12, 7, p12, 19, 40, NUVASKOE_REFUSAL_PACKET_SHORT, 0));
    CHECK(refused(p12, 19, p12, 7, 40, NUVASKOE_REFUSAL_PACKET_LENGTH, 0));

    /* Then the list's: four differences take twenty numbers. */
    CHECK(refused(p12, sizeof p12, past, sizeof past, 0, NUVASKOE_REFUSAL_BLOCK_PAST_END, 56));
    CHECK(refused(four, sizeof four, p12, sizeof p12, 0, NUVASKOE_REFUSAL_BUFFER_SHORT, 0));
    CHECK(refused(four, sizeof four, p12, sizeof p12, 19, NUVASKOE_REFUSAL_BUFFER_SHORT, 0));
    hold();
    CHECK(nuvaskoe_packet_compare(four, sizeof four, p12, sizeof p12, out, 20).differences == 4);
    CHECK(is(3, NUVASKOE_DIFFERENCE_ONLY_FIRST, 3, 0, 0, 0) && held_from(20));
}

int main(void)
{
    check_equal();
    check_kinds();
    check_streams();
    check_measured();
    check_refusals();
    return checked("compare.c");
}
