/* empty.c: no bytes at all, handed in as NULL with length 0 through every call that is lent a buffer. */
#include "check.h"

static const nuvaskoe_settings settings = {16, 100, 10, 400};

static int refused(nuvaskoe_refusal refusal, uint32_t number)
{
    return refusal.number == number && refusal.place == 0;
}

static void check_reading(void)
{
    uint32_t held = 7;
    nuvaskoe_part body = nuvaskoe_packet_body(NULL, 0, 0);

    CHECK(refused(nuvaskoe_card_read(NULL, 0).refusal, NUVASKOE_REFUSAL_CARD_DIGITS));
    CHECK(refused(nuvaskoe_packet_read(NULL, 0).refusal, NUVASKOE_REFUSAL_PACKET_SHORT));
    CHECK(refused(nuvaskoe_packet_block(NULL, 0, 0).refusal, NUVASKOE_REFUSAL_PACKET_SHORT));
    CHECK(body.start == 0 && body.length == 0);
    CHECK(refused(nuvaskoe_packet_list(NULL, 0, &held, 1).refusal, NUVASKOE_REFUSAL_PACKET_SHORT));
    CHECK(held == 7);
    CHECK(refused(nuvaskoe_packet_list(NULL, 0, NULL, 0).refusal, NUVASKOE_REFUSAL_PACKET_SHORT));
    CHECK(nuvaskoe_panel_of_packet(NULL, 0, 0).lamp == 0);
    CHECK(nuvaskoe_block_read(9, 0, NULL, 0).verdict == NUVASKOE_VERDICT_UNKNOWN);
    CHECK(nuvaskoe_block_read(NUVASKOE_BLOCK_LOSS, 64, NULL, 0).verdict == NUVASKOE_VERDICT_BAD_SIZE);
    CHECK(nuvaskoe_block_read(NUVASKOE_BLOCK_RLE, 0, NULL, 0).verdict == NUVASKOE_VERDICT_BAD_SIZE);
}

/* A packet without blocks needs no entry, so its list may be NULL too, and so may the list of its differences from itself. */
static void check_empty_list(void)
{
    uint8_t packet[8];
    uint8_t other[8];
    nuvaskoe_written listed;
    nuvaskoe_compared compared;

    CHECK(nuvaskoe_packet_new(1, packet, sizeof packet).size == sizeof packet);
    listed = nuvaskoe_packet_list(packet, sizeof packet, NULL, 0);
    CHECK(refused(listed.refusal, NUVASKOE_OK) && listed.size == 0);
    compared = nuvaskoe_packet_compare(packet, sizeof packet, packet, sizeof packet, NULL, 0);
    CHECK(refused(compared.refusal, NUVASKOE_OK) && compared.differences == 0);
    CHECK(nuvaskoe_packet_new(2, other, sizeof other).size == sizeof other);
    compared = nuvaskoe_packet_compare(packet, sizeof packet, other, sizeof other, NULL, 0);
    CHECK(refused(compared.refusal, NUVASKOE_REFUSAL_BUFFER_SHORT) && compared.differences == 0);
}

/* Either packet, or both, and the list of what differs. */
static void check_comparing(void)
{
    uint32_t held = 7;
    uint8_t packet[8];

    CHECK(nuvaskoe_packet_new(1, packet, sizeof packet).size == sizeof packet);
    CHECK(refused(nuvaskoe_packet_compare(NULL, 0, NULL, 0, NULL, 0).refusal, NUVASKOE_REFUSAL_PACKET_SHORT));
    CHECK(refused(nuvaskoe_packet_compare(NULL, 0, packet, sizeof packet, &held, 1).refusal, NUVASKOE_REFUSAL_PACKET_SHORT));
    CHECK(refused(nuvaskoe_packet_compare(packet, sizeof packet, NULL, 0, &held, 1).refusal, NUVASKOE_REFUSAL_PACKET_SHORT));
    CHECK(held == 7);
}

static void check_writing(void)
{
    nuvaskoe_measurement measurement = {0, 0, 0, 0, 0, 0, 0};
    nuvaskoe_loss_summary loss = {1, 0, 0, 0, 0, 0};
    nuvaskoe_discard_summary discard = {1, 0, 0, 0};
    nuvaskoe_effective_summary effective = {0, 0};
    nuvaskoe_stream_counts streams = {0, 0, 0, 0, 0, 0, 0, 0, 0, 0, 0, 0};

    CHECK(refused(nuvaskoe_card_write(settings, NULL, 0).refusal, NUVASKOE_REFUSAL_BUFFER_SHORT));
    CHECK(refused(nuvaskoe_packet_new(1, NULL, 0).refusal, NUVASKOE_REFUSAL_BUFFER_SHORT));
    CHECK(refused(nuvaskoe_packet_add_measurement(NULL, 0, measurement).refusal, NUVASKOE_REFUSAL_PACKET_SHORT));
    CHECK(refused(nuvaskoe_packet_add_loss(NULL, 0, loss).refusal, NUVASKOE_REFUSAL_PACKET_SHORT));
    CHECK(refused(nuvaskoe_packet_add_discard(NULL, 0, discard).refusal, NUVASKOE_REFUSAL_PACKET_SHORT));
    CHECK(refused(nuvaskoe_packet_add_effective(NULL, 0, effective).refusal, NUVASKOE_REFUSAL_PACKET_SHORT));
    CHECK(refused(nuvaskoe_packet_add_streams(NULL, 0, streams).refusal, NUVASKOE_REFUSAL_PACKET_SHORT));
}

/* A trace, the packet that it is read out of, and where it goes. A block on no packets needs no room. */
static void check_runs(void)
{
    static const uint8_t none[20] = {0x80, 0xCF, 0, 4, 0, 0, 0, 1, 1, 0, 0, 2, 0, 0, 0, 5, 0, 7, 0, 7};
    const uint8_t lost = 1;
    uint8_t packet[24];
    uint8_t held = 7;
    nuvaskoe_written read = nuvaskoe_packet_rle(none, sizeof none, 0, NULL, 0);

    CHECK(refused(read.refusal, NUVASKOE_OK) && read.size == 0);
    CHECK(refused(nuvaskoe_packet_rle(NULL, 0, 0, NULL, 0).refusal, NUVASKOE_REFUSAL_PACKET_SHORT));
    CHECK(refused(nuvaskoe_packet_rle(NULL, 0, 0, &held, 1).refusal, NUVASKOE_REFUSAL_PACKET_SHORT));
    CHECK(refused(nuvaskoe_packet_rle(none, sizeof none, 1, NULL, 0).refusal, NUVASKOE_REFUSAL_NO_SUCH_BLOCK));
    CHECK(held == 7);
    CHECK(refused(nuvaskoe_packet_add_rle(NULL, 0, 5, 7, NULL, 0).refusal, NUVASKOE_REFUSAL_PACKET_SHORT));
    CHECK(refused(nuvaskoe_packet_add_rle(NULL, 0, 5, 7, &lost, 1).refusal, NUVASKOE_REFUSAL_PACKET_SHORT));
    CHECK(nuvaskoe_packet_new(1, packet, sizeof packet).size == 8);
    CHECK(refused(nuvaskoe_packet_add_rle(packet, sizeof packet, 5, 7, NULL, 0).refusal, NUVASKOE_REFUSAL_TRACE_LENGTH));
    CHECK(nuvaskoe_packet_add_rle(packet, sizeof packet, 5, 7, &lost, 1).size == sizeof packet);
    CHECK(refused(nuvaskoe_packet_rle(packet, sizeof packet, 0, NULL, 0).refusal, NUVASKOE_REFUSAL_BUFFER_SHORT));
}

static void check_traces(void)
{
    const uint8_t lost = 1;

    CHECK(refused(nuvaskoe_figures(NULL, 0, 16, 400, NUVASKOE_EVENT_LOST).refusal, NUVASKOE_REFUSAL_TRACE_LENGTH));
    CHECK(refused(nuvaskoe_loss_of_trace(NULL, 0, 16, 400, 2, 1).refusal, NUVASKOE_REFUSAL_TRACE_LENGTH));
    CHECK(refused(nuvaskoe_discard_of_trace(NULL, 0, 16, 400, 2, 1).refusal, NUVASKOE_REFUSAL_TRACE_LENGTH));
    CHECK(refused(nuvaskoe_effective_loss(NULL, 0, 1, 0, NUVASKOE_EVENT_LOST).refusal, NUVASKOE_REFUSAL_TRACE_LENGTH));
    CHECK(refused(nuvaskoe_resend_plan(NULL, 0, 1, 0, NUVASKOE_EVENT_LOST, NULL, 0).refusal, NUVASKOE_REFUSAL_TRACE_LENGTH));
    CHECK(refused(nuvaskoe_resend_plan(&lost, 1, 1, 0, NUVASKOE_EVENT_LOST, NULL, 0).refusal, NUVASKOE_REFUSAL_BUFFER_SHORT));
}

/* Words, the trace that they are packed from or unpacked to, and a plan. */
static void check_packed(void)
{
    const uint8_t lost = 1;
    const uint64_t word = 1;
    uint64_t held_word = 7;
    uint8_t held = 7;

    CHECK(refused(nuvaskoe_trace_pack(NULL, 0, NUVASKOE_EVENT_LOST, NULL, 0).refusal, NUVASKOE_REFUSAL_TRACE_LENGTH));
    CHECK(refused(nuvaskoe_trace_pack(NULL, 0, NUVASKOE_EVENT_LOST, &held_word, 1).refusal, NUVASKOE_REFUSAL_TRACE_LENGTH));
    CHECK(refused(nuvaskoe_trace_pack(&lost, 1, NUVASKOE_EVENT_LOST, NULL, 0).refusal, NUVASKOE_REFUSAL_BUFFER_SHORT));
    CHECK(refused(nuvaskoe_trace_unpack(NULL, 0, 0, NULL, 0).refusal, NUVASKOE_REFUSAL_TRACE_LENGTH));
    CHECK(refused(nuvaskoe_trace_unpack(NULL, 0, 1, &held, 1).refusal, NUVASKOE_REFUSAL_BUFFER_SHORT));
    CHECK(refused(nuvaskoe_trace_unpack(&word, 1, 1, NULL, 0).refusal, NUVASKOE_REFUSAL_BUFFER_SHORT));
    CHECK(refused(nuvaskoe_packed_loss(NULL, 0, 0, 1, 0).refusal, NUVASKOE_REFUSAL_TRACE_LENGTH));
    CHECK(refused(nuvaskoe_packed_loss(NULL, 0, 1, 1, 0).refusal, NUVASKOE_REFUSAL_BUFFER_SHORT));
    CHECK(refused(nuvaskoe_packed_plan(NULL, 0, 1, 1, 0, NULL, 0).refusal, NUVASKOE_REFUSAL_BUFFER_SHORT));
    CHECK(refused(nuvaskoe_packed_plan(NULL, 0, 1, 1, 0, &held, 1).refusal, NUVASKOE_REFUSAL_BUFFER_SHORT));
    CHECK(refused(nuvaskoe_packed_plan(&word, 1, 1, 1, 0, NULL, 0).refusal, NUVASKOE_REFUSAL_BUFFER_SHORT));
    CHECK(held == 7 && held_word == 7);
}

int main(void)
{
    check_reading();
    check_empty_list();
    check_comparing();
    check_writing();
    check_runs();
    check_traces();
    check_packed();
    return checked("empty.c");
}
