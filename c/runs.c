/* runs.c: Loss RLE through the C boundary, by plain comparisons: traces read out of blocks of type 1, and written as one. */
#include <string.h>

#include "check.h"

static uint8_t packet[9000];
static uint8_t trace[NUVASKOE_INTERVAL_MAX + 3];
static uint8_t out[NUVASKOE_INTERVAL_MAX + 3];

/* A block on 40 packets, 65,530 to 33: 2 received, a vector of 15 with its first and last lost, a run of nothing, and 30 lost,
 * of which 7 stand behind the end. Then an effective loss, and a block 1 with its last chunk missing. */
static const uint8_t three[60] = {
    0x80, 0xCF, 0x00, 0x0E, 0x00, 0x00, 0x00, 0x01,
    0x01, 0xF0, 0x00, 0x04, 0x00, 0x00, 0x00, 0x05, 0xFF, 0xFA, 0x00, 0x22, 0x40, 0x02, 0xBF, 0xFE, 0x40, 0x00, 0x00, 0x1E,
    0xF0, 0x00, 0x00, 0x02, 0x00, 0x00, 0x00, 0x02, 0x92, 0x48, 0x00, 0x00,
    0x01, 0x00, 0x00, 0x04, 0x00, 0x00, 0x00, 0x05, 0xFF, 0xFA, 0x00, 0x22, 0x40, 0x02, 0xBF, 0xFE, 0x40, 0x00, 0x00, 0x00
};

static int refused(nuvaskoe_written written, uint32_t number, size_t place)
{
    return written.refusal.number == number && written.refusal.place == place && written.size == 0;
}

static int answered(nuvaskoe_written written, size_t size)
{
    return written.refusal.number == NUVASKOE_OK && written.refusal.place == 0 && written.size == size;
}

/* Whether every byte of some is this one. */
static int all(const uint8_t *bytes, size_t length, uint8_t byte)
{
    size_t i;
    for (i = 0; i < length; i++) {
        if (bytes[i] != byte) {
            return 0;
        }
    }
    return 1;
}

static void check_reading(void)
{
    uint32_t entries[6];
    nuvaskoe_block block = nuvaskoe_packet_block(three, sizeof three, 0);

    CHECK(block.refusal.number == NUVASKOE_OK && block.block_type == NUVASKOE_BLOCK_RLE);
    CHECK(block.verdict == NUVASKOE_VERDICT_RLE);
    CHECK(block.fields[NUVASKOE_FIELD_RLE_SOURCE] == 5);
    CHECK(block.fields[NUVASKOE_FIELD_RLE_BEGIN] == 65530 && block.fields[NUVASKOE_FIELD_RLE_END] == 34);
    CHECK(block.fields[NUVASKOE_FIELD_RLE_PACKETS] == 40 && block.fields[NUVASKOE_FIELD_RLE_LOST] == 25);
    block = nuvaskoe_packet_block(three, sizeof three, 2);
    CHECK(block.verdict == NUVASKOE_VERDICT_BAD_CHUNKS && block.fields[NUVASKOE_FIELD_RLE_SOURCE] == 0);
    block = nuvaskoe_block_read(NUVASKOE_BLOCK_RLE, 0, three + 12, 16);
    CHECK(block.verdict == NUVASKOE_VERDICT_RLE && block.fields[NUVASKOE_FIELD_RLE_LOST] == 25);
    CHECK(nuvaskoe_block_read(NUVASKOE_BLOCK_RLE, 0, three + 12, 15).verdict == NUVASKOE_VERDICT_BAD_SIZE);
    CHECK(nuvaskoe_block_read(NUVASKOE_BLOCK_RLE, 1, three + 12, 16).verdict == NUVASKOE_VERDICT_BAD_FLAG);

    CHECK(answered(nuvaskoe_packet_list(three, sizeof three, entries, 6), 6));
    CHECK(entries[1] == NUVASKOE_VERDICT_RLE && entries[3] == NUVASKOE_VERDICT_TYPED);
    CHECK(entries[5] == NUVASKOE_VERDICT_BAD_CHUNKS);
    CHECK(nuvaskoe_panel_of_packet(three, sizeof three, 0).lamp == 0);
}

static void check_reading_out(void)
{
    memset(out, 7, sizeof out);
    CHECK(answered(nuvaskoe_packet_rle(three, sizeof three, 0, out, 41), 40));
    CHECK(all(out, 2, 0) && out[2] == 1 && all(out + 3, 13, 0) && out[16] == 1 && all(out + 17, 23, 1) && out[40] == 7);

    memset(out, 7, sizeof out);
    CHECK(refused(nuvaskoe_packet_rle(three, sizeof three, 0, out, 39), NUVASKOE_REFUSAL_BUFFER_SHORT, 0));
    CHECK(refused(nuvaskoe_packet_rle(three, sizeof three, 1, out, 40), NUVASKOE_REFUSAL_NO_SUCH_BLOCK, 0));
    CHECK(refused(nuvaskoe_packet_rle(three, sizeof three, 2, out, 0), NUVASKOE_REFUSAL_NO_SUCH_BLOCK, 0));
    CHECK(refused(nuvaskoe_packet_rle(three, sizeof three, 3, out, 40), NUVASKOE_REFUSAL_NO_SUCH_BLOCK, 0));
    CHECK(refused(nuvaskoe_packet_rle(three, sizeof three - 4, 0, out, 40), NUVASKOE_REFUSAL_PACKET_LENGTH, 0));
    CHECK(all(out, sizeof out, 7));
}

/* Every number of packets up to some vectors: written as vectors, and read back. */
static void check_there_and_back(void)
{
    size_t packets, i;
    for (packets = 1; packets <= 100; packets++) {
        size_t vectors = (packets + 14) / 15;
        size_t size = 20 + 2 * (vectors + vectors % 2);
        nuvaskoe_written added;

        for (i = 0; i < packets; i++) {
            trace[i] = (uint8_t)((i * i + packets) % 3 == 0);
        }
        memset(packet, 0xA5, sizeof packet);
        CHECK(answered(nuvaskoe_packet_new(9, packet, sizeof packet), 8));
        added = nuvaskoe_packet_add_rle(packet, size, 5, 65500, trace, packets);
        CHECK(answered(added, size) && packet[size] == 0xA5);
        for (i = 0; i < vectors; i++) {
            CHECK((packet[20 + 2 * i] & 0x80) == 0x80);
        }
        CHECK(vectors % 2 == 0 || (packet[size - 2] == 0 && packet[size - 1] == 0));
        memset(out, 7, sizeof out);
        CHECK(answered(nuvaskoe_packet_rle(packet, size, 0, out, sizeof out), packets));
        CHECK(memcmp(out, trace, packets) == 0 && out[packets] == 7);
    }
}

static void check_refusals(void)
{
    static uint8_t before[sizeof packet];

    memset(trace, 0, sizeof trace);
    CHECK(answered(nuvaskoe_packet_new(9, packet, sizeof packet), 8));
    memcpy(before, packet, sizeof packet);
    CHECK(refused(nuvaskoe_packet_add_rle(packet, sizeof packet, 5, 0, trace, 0), NUVASKOE_REFUSAL_TRACE_LENGTH, 0));
    trace[3] = 2;
    CHECK(refused(nuvaskoe_packet_add_rle(packet, sizeof packet, 5, 0, trace, NUVASKOE_INTERVAL_MAX + 1),
                  NUVASKOE_REFUSAL_TRACE_LENGTH, 0));
    CHECK(refused(nuvaskoe_packet_add_rle(packet, 8, 5, 0, trace, 10), NUVASKOE_REFUSAL_TRACE_BYTE, 3));
    CHECK(refused(nuvaskoe_packet_add_rle(packet, 23, 5, 0, trace, 3), NUVASKOE_REFUSAL_BUFFER_SHORT, 0));
    CHECK(refused(nuvaskoe_packet_add_rle(packet, 7, 5, 0, trace, 3), NUVASKOE_REFUSAL_PACKET_SHORT, 0));
    CHECK(memcmp(packet, before, sizeof packet) == 0);

    /* The most packets, all lost. */
    memset(trace, 1, sizeof trace);
    CHECK(answered(nuvaskoe_packet_add_rle(packet, sizeof packet, 5, 3, trace, NUVASKOE_INTERVAL_MAX), 8760));
    CHECK(nuvaskoe_packet_block(packet, 8760, 0).fields[NUVASKOE_FIELD_RLE_LOST] == NUVASKOE_INTERVAL_MAX);
    CHECK(answered(nuvaskoe_packet_rle(packet, 8760, 0, out, NUVASKOE_INTERVAL_MAX), NUVASKOE_INTERVAL_MAX));
    CHECK(all(out, NUVASKOE_INTERVAL_MAX, 1));
}

/* Compared by bytes: the same trace as a vector and as a run differs. */
static void check_comparing(void)
{
    static const uint8_t as_run[24] = {0x80, 0xCF, 0, 5, 0, 0, 0, 9, 1, 0, 0, 3, 0, 0, 0, 5, 0, 0, 0, 2, 0, 2, 0, 0};
    uint32_t numbers[NUVASKOE_DIFFERENCE_NUMBERS];
    nuvaskoe_compared compared;

    memset(trace, 1, 2);
    CHECK(answered(nuvaskoe_packet_new(9, packet, sizeof packet), 8));
    CHECK(answered(nuvaskoe_packet_add_rle(packet, sizeof packet, 5, 0, trace, 2), 24));
    CHECK(answered(nuvaskoe_packet_rle(as_run, sizeof as_run, 0, out, 2), 2) && memcmp(out, trace, 2) == 0);
    compared = nuvaskoe_packet_compare(packet, 24, as_run, sizeof as_run, numbers, NUVASKOE_DIFFERENCE_NUMBERS);
    CHECK(compared.refusal.number == NUVASKOE_OK && compared.differences == 1);
    CHECK(numbers[0] == NUVASKOE_DIFFERENCE_BLOCK && numbers[1] == 0);
    compared = nuvaskoe_packet_compare(packet, 24, packet, 24, numbers, 0);
    CHECK(compared.refusal.number == NUVASKOE_OK && compared.differences == 0);
}

int main(void)
{
    check_reading();
    check_reading_out();
    check_there_and_back();
    check_refusals();
    check_comparing();
    return checked("runs.c");
}
