/* compose.c: report packets written through the C boundary, by plain comparisons. */
#include <string.h>

#include "check.h"

/* What a buffer holds before a call; no byte of a block below is this. */
#define HELD 0xA5

/* A new packet and one block of each kind, as bytes. */
static const uint8_t all_kinds[128] = {
    0x80, 0xCF, 0x00, 0x1F, 0x0A, 0x0B, 0x0C, 0x0D,
    0x11, 0x80, 0x00, 0x03, 0x00, 0x00, 0x00, 0x05,
    0x80, 0x00, 0xFF, 0xFF, 0xFF, 0xFE, 0x01, 0x02,
    0x12, 0xC0, 0x00, 0x02, 0x00, 0x00, 0x00, 0x05, 0x00, 0x03, 0x00, 0x04,
    0x0E, 0x00, 0x00, 0x07, 0x00, 0x00, 0x00, 0x05, 0x00, 0x00, 0x11, 0x12,
    0x13, 0x14, 0x15, 0x16, 0x17, 0x18, 0x19, 0x1A, 0x1B, 0x1C, 0x1D, 0x1E,
    0x1F, 0x20, 0x21, 0x22, 0x23, 0x24, 0x25, 0x26,
    0xF0, 0x00, 0x00, 0x02, 0x00, 0x00, 0x00, 0x02, 0x92, 0x48, 0x00, 0x00,
    0xF1, 0x00, 0x00, 0x0B, 0x31, 0x32, 0x33, 0x34, 0xFF, 0xFF, 0x00, 0x02,
    0x00, 0x00, 0x00, 0x09, 0x00, 0x00, 0x00, 0x01, 0x00, 0x00, 0x00, 0x02,
    0x00, 0x00, 0x00, 0x03, 0x00, 0x00, 0x00, 0x04, 0x00, 0x00, 0x00, 0x05,
    0x00, 0x00, 0x00, 0x06, 0x00, 0x00, 0x00, 0x07, 0x00, 0x00, 0x00, 0x08
};

/* Each struct is filled over other bytes, so that what lies between its fields is not 0. */
static nuvaskoe_measurement measurement(void)
{
    nuvaskoe_measurement block;
    memset(&block, 0xFF, sizeof block);
    block.source = 5;
    block.first = 0x1112;
    block.extended_first = 0x13141516;
    block.extended_last = 0x1718191A;
    block.interval = 0x1B1C1D1E;
    block.seconds = 0x1F202122;
    block.fraction = 0x23242526;
    return block;
}

static nuvaskoe_loss_summary loss(void)
{
    nuvaskoe_loss_summary block;
    memset(&block, 0xFF, sizeof block);
    block.flag = 2;
    block.source = 5;
    block.burst_rate = 32768;
    block.gap_rate = 65535;
    block.burst_mean = 65534;
    block.burst_variance = 0x0102;
    return block;
}

static nuvaskoe_discard_summary discard(void)
{
    nuvaskoe_discard_summary block;
    memset(&block, 0xFF, sizeof block);
    block.flag = 3;
    block.source = 5;
    block.burst_rate = 3;
    block.gap_rate = 4;
    return block;
}

static nuvaskoe_effective_summary effective(void)
{
    nuvaskoe_effective_summary block;
    memset(&block, 0xFF, sizeof block);
    block.source = 2;
    block.index = 37448;
    return block;
}

static nuvaskoe_stream_counts streams(void)
{
    nuvaskoe_stream_counts block;
    memset(&block, 0xFF, sizeof block);
    block.source = 0x31323334;
    block.begin = 65535;
    block.end = 2;
    block.streams = 9;
    block.sync_losses = 1;
    block.sync_byte_errors = 2;
    block.continuity_errors = 3;
    block.transport_errors = 4;
    block.pcr_errors = 5;
    block.pcr_repetition_errors = 6;
    block.pcr_discontinuity_errors = 7;
    block.pts_errors = 8;
    return block;
}

static int wrote(nuvaskoe_written answer, size_t size)
{
    return answer.refusal.number == NUVASKOE_OK && answer.refusal.place == 0 &&
           answer.size == size;
}

static int refused(nuvaskoe_written answer, uint32_t number, size_t place)
{
    return answer.refusal.number == number && answer.refusal.place == place &&
           answer.size == 0;
}

/* The bytes from number `from` on are as they were before any call. */
static int held(const uint8_t *bytes, size_t from, size_t length)
{
    size_t i;
    for (i = from; i < length; i++) {
        if (bytes[i] != HELD) {
            return 0;
        }
    }
    return 1;
}

static void check_new(void)
{
    uint8_t out[12];
    memset(out, HELD, sizeof out);
    CHECK(refused(nuvaskoe_packet_new(0x0A0B0C0D, out, 0), NUVASKOE_REFUSAL_BUFFER_SHORT, 0));
    CHECK(refused(nuvaskoe_packet_new(0x0A0B0C0D, out, 7), NUVASKOE_REFUSAL_BUFFER_SHORT, 0));
    CHECK(held(out, 0, sizeof out));
    CHECK(wrote(nuvaskoe_packet_new(0x0A0B0C0D, out, sizeof out), 8));
    CHECK(out[3] == 1);
    CHECK(memcmp(out, all_kinds, 3) == 0 && memcmp(out + 4, all_kinds + 4, 4) == 0);
    CHECK(held(out, 8, sizeof out));
}

static void check_adding(void)
{
    uint8_t out[sizeof all_kinds + 4];
    nuvaskoe_block block;

    memset(out, HELD, sizeof out);
    CHECK(wrote(nuvaskoe_packet_new(0x0A0B0C0D, out, sizeof out), 8));
    CHECK(wrote(nuvaskoe_packet_add_loss(out, sizeof out, loss()), 24));
    CHECK(held(out, 24, sizeof out));
    CHECK(wrote(nuvaskoe_packet_add_discard(out, sizeof out, discard()), 36));
    CHECK(held(out, 36, sizeof out));

    /* Neither is measured yet. */
    block = nuvaskoe_packet_block(out, 36, 0);
    CHECK(block.block_type == 17 && block.verdict == NUVASKOE_VERDICT_UNMEASURED);
    CHECK(wrote(nuvaskoe_packet_add_measurement(out, sizeof out, measurement()), 68));
    CHECK(held(out, 68, sizeof out));
    block = nuvaskoe_packet_block(out, 68, 0);
    CHECK(block.block_type == 17 && block.verdict == NUVASKOE_VERDICT_TYPED);
    CHECK(block.fields[0] == 2 && block.fields[1] == 5 && block.fields[2] == 32768);
    CHECK(block.fields[3] == 65535 && block.fields[4] == 65534 && block.fields[5] == 0x0102);

    CHECK(wrote(nuvaskoe_packet_add_effective(out, sizeof out, effective()), 80));
    CHECK(held(out, 80, sizeof out));

    /* One byte too little for the block of 48, then just enough. */
    CHECK(refused(nuvaskoe_packet_add_streams(out, 127, streams()), NUVASKOE_REFUSAL_BUFFER_SHORT, 0));
    CHECK(held(out, 80, sizeof out) && out[3] == 19);
    CHECK(wrote(nuvaskoe_packet_add_streams(out, 128, streams()), 128));
    CHECK(memcmp(out, all_kinds, sizeof all_kinds) == 0);
    CHECK(held(out, sizeof all_kinds, sizeof out));
    CHECK(nuvaskoe_packet_read(out, 128).blocks == 5);
}

/* Numbers that reading would drop, and their neighbours that it would not. */
static void check_values(void)
{
    uint8_t out[64];
    nuvaskoe_loss_summary bad_loss = loss();
    nuvaskoe_discard_summary bad_discard = discard();

    memset(out, HELD, sizeof out);
    CHECK(wrote(nuvaskoe_packet_new(1, out, sizeof out), 8));
    bad_loss.flag = 0;
    CHECK(refused(nuvaskoe_packet_add_loss(out, sizeof out, bad_loss), NUVASKOE_REFUSAL_BLOCK_VALUE, 0));
    bad_loss.flag = 4;
    CHECK(refused(nuvaskoe_packet_add_loss(out, sizeof out, bad_loss), NUVASKOE_REFUSAL_BLOCK_VALUE, 0));
    bad_loss.flag = 1;
    bad_loss.burst_rate = 32769;
    CHECK(refused(nuvaskoe_packet_add_loss(out, sizeof out, bad_loss), NUVASKOE_REFUSAL_BLOCK_VALUE, 0));
    bad_discard.gap_rate = 65534;
    CHECK(refused(nuvaskoe_packet_add_discard(out, sizeof out, bad_discard), NUVASKOE_REFUSAL_BLOCK_VALUE, 0));
    /* 16 comes before 8. */
    CHECK(refused(nuvaskoe_packet_add_discard(out, 8, bad_discard), NUVASKOE_REFUSAL_BLOCK_VALUE, 0));
    CHECK(held(out, 8, sizeof out) && out[3] == 1);
    bad_discard.gap_rate = 65535;
    CHECK(refused(nuvaskoe_packet_add_discard(out, 8, bad_discard), NUVASKOE_REFUSAL_BUFFER_SHORT, 0));
    CHECK(wrote(nuvaskoe_packet_add_discard(out, sizeof out, bad_discard), 20));
}

/* A packet's own refusals come before 16, and its blocks are judged inside it alone. */
static void check_bad_packets(void)
{
    uint8_t out[64];
    uint8_t before[64];
    nuvaskoe_discard_summary bad = discard();

    bad.flag = 0;
    memset(out, HELD, sizeof out);
    CHECK(refused(nuvaskoe_packet_add_discard(out, 7, bad), NUVASKOE_REFUSAL_PACKET_SHORT, 0));
    memcpy(out, all_kinds, 36);
    out[3] = 8;
    memcpy(before, out, sizeof out);
    out[0] = 0x40;
    CHECK(refused(nuvaskoe_packet_add_discard(out, sizeof out, bad), NUVASKOE_REFUSAL_VERSION, 0));
    out[0] = 0x80;
    out[1] = 206;
    CHECK(refused(nuvaskoe_packet_add_discard(out, sizeof out, bad), NUVASKOE_REFUSAL_PACKET_TYPE, 0));
    out[1] = 207;
    out[3] = 16;
    CHECK(refused(nuvaskoe_packet_add_discard(out, sizeof out, bad), NUVASKOE_REFUSAL_PACKET_LENGTH, 0));
    out[3] = 0;
    CHECK(refused(nuvaskoe_packet_add_discard(out, sizeof out, bad), NUVASKOE_REFUSAL_PACKET_LENGTH, 0));
    out[3] = 8;
    out[0] = 0xA0;
    CHECK(refused(nuvaskoe_packet_add_discard(out, sizeof out, bad), NUVASKOE_REFUSAL_PADDING, 0));
    out[0] = 0x80;
    out[27] = 3;
    CHECK(refused(nuvaskoe_packet_add_discard(out, sizeof out, bad), NUVASKOE_REFUSAL_BLOCK_PAST_END, 24));
    out[27] = 2;
    CHECK(refused(nuvaskoe_packet_add_discard(out, sizeof out, bad), NUVASKOE_REFUSAL_BLOCK_VALUE, 0));
    CHECK(memcmp(out, before, sizeof out) == 0);
    CHECK(wrote(nuvaskoe_packet_add_discard(out, sizeof out, discard()), 48));
}

/* One unknown block leaves three words below the limit: enough for a 240 and not for a 17. */
static void check_full(void)
{
    static uint8_t out[NUVASKOE_PACKET_BYTES_MAX + 16];

    memset(out, 0, sizeof out);
    CHECK(wrote(nuvaskoe_packet_new(1, out, sizeof out), 8));
    out[2] = out[10] = 0xFF;
    out[3] = 0xFC;
    out[8] = 1;
    out[11] = 0xFA;
    CHECK(nuvaskoe_packet_read(out, NUVASKOE_PACKET_BYTES_MAX - 12).blocks == 1);
    CHECK(refused(nuvaskoe_packet_add_loss(out, sizeof out, loss()), NUVASKOE_REFUSAL_PACKET_FULL, 0));
    /* 17 comes before 8. */
    CHECK(refused(nuvaskoe_packet_add_loss(out, NUVASKOE_PACKET_BYTES_MAX - 12, loss()), NUVASKOE_REFUSAL_PACKET_FULL, 0));
    CHECK(refused(nuvaskoe_packet_add_effective(out, NUVASKOE_PACKET_BYTES_MAX - 1, effective()), NUVASKOE_REFUSAL_BUFFER_SHORT, 0));
    CHECK(out[2] == 0xFF && out[3] == 0xFC && out[NUVASKOE_PACKET_BYTES_MAX - 12] == 0);
    CHECK(wrote(nuvaskoe_packet_add_effective(out, NUVASKOE_PACKET_BYTES_MAX, effective()), NUVASKOE_PACKET_BYTES_MAX));
    CHECK(out[2] == 0xFF && out[3] == 0xFF);
    CHECK(memcmp(out + NUVASKOE_PACKET_BYTES_MAX - 12, all_kinds + 68, 12) == 0);
    CHECK(refused(nuvaskoe_packet_add_effective(out, sizeof out, effective()), NUVASKOE_REFUSAL_PACKET_FULL, 0));
}

int main(void)
{
    check_new();
    check_adding();
    check_values();
    check_bad_packets();
    check_full();
    return checked("compose.c");
}
