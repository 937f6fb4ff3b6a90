/* packet.c: report packets through the C boundary, by plain comparisons. */
#include <string.h>

#include "check.h"

/* P12: one effective loss block, source 2, index 37,448. */
static const uint8_t p12[20] = {
    0x80, 0xCF, 0x00, 0x04, 0x00, 0x00, 0x00, 0x01,
    0xF0, 0x00, 0x00, 0x02, 0x00, 0x00, 0x00, 0x02, 0x92, 0x48, 0x00, 0x00
};

/* A discard block of source 5, an unknown block, and a discard block of flag 0. */
static const uint8_t three[36] = {
    0x80, 0xCF, 0x00, 0x08, 0x00, 0x00, 0x00, 0x01,
    0x12, 0x40, 0x00, 0x02, 0x00, 0x00, 0x00, 0x05, 0x80, 0x00, 0xFF, 0xFF,
    0x09, 0x00, 0x00, 0x00,
    0x12, 0x3F, 0x00, 0x02, 0x00, 0x00, 0x00, 0x05, 0x80, 0x00, 0xFF, 0xFF
};

/* The fields from number `from` on are 0. */
static int no_fields(const nuvaskoe_block *block, size_t from)
{
    size_t i;
    for (i = from; i < NUVASKOE_FIELDS; i++) {
        if (block->fields[i] != 0) {
            return 0;
        }
    }
    return 1;
}

/* A refused block gives its number and place, and nothing else. */
static int refused(nuvaskoe_block block, uint32_t number, size_t place)
{
    return block.refusal.number == number && block.refusal.place == place &&
           block.block_type == 0 && block.verdict == NUVASKOE_VERDICT_UNKNOWN && no_fields(&block, 0);
}

static int is_p12(nuvaskoe_block block)
{
    return block.refusal.number == NUVASKOE_OK && block.refusal.place == 0 &&
           block.block_type == 240 && block.verdict == NUVASKOE_VERDICT_TYPED &&
           block.fields[0] == 2 && block.fields[1] == 37448 && no_fields(&block, 2);
}

static void check_p12(void)
{
    nuvaskoe_packet packet = nuvaskoe_packet_read(p12, sizeof p12);
    nuvaskoe_part part = nuvaskoe_packet_body(p12, sizeof p12, 0);
    uint32_t out[2] = {0, 0};
    nuvaskoe_written listed = nuvaskoe_packet_list(p12, sizeof p12, out, 2);

    CHECK(packet.refusal.number == NUVASKOE_OK);
    CHECK(packet.refusal.place == 0);
    CHECK(packet.sender == 1);
    CHECK(packet.blocks == 1);
    CHECK(is_p12(nuvaskoe_packet_block(p12, sizeof p12, 0)));
    CHECK(part.start == 12);
    CHECK(part.length == 8);
    CHECK(is_p12(nuvaskoe_block_read(240, 0, p12 + part.start, part.length)));
    CHECK(listed.refusal.number == NUVASKOE_OK);
    CHECK(listed.size == 2);
    CHECK(out[0] == 8 && out[1] == NUVASKOE_VERDICT_TYPED);
}

static void check_kinds(void)
{
    nuvaskoe_block block = nuvaskoe_packet_block(three, sizeof three, 0);
    CHECK(block.refusal.number == NUVASKOE_OK);
    CHECK(block.block_type == 18 && block.verdict == NUVASKOE_VERDICT_UNMEASURED && no_fields(&block, 0));

    /* By itself it needs no measurement. */
    block = nuvaskoe_block_read(18, 0x40, three + 12, 8);
    CHECK(block.block_type == 18 && block.verdict == NUVASKOE_VERDICT_TYPED && no_fields(&block, 4));
    CHECK(block.fields[0] == 1 && block.fields[1] == 5);
    CHECK(block.fields[2] == 32768 && block.fields[3] == 65535);

    block = nuvaskoe_packet_block(three, sizeof three, 1);
    CHECK(block.block_type == 9 && block.verdict == NUVASKOE_VERDICT_UNKNOWN && no_fields(&block, 0));
    block = nuvaskoe_packet_block(three, sizeof three, 2);
    CHECK(block.block_type == 18 && block.verdict == NUVASKOE_VERDICT_BAD_FLAG && no_fields(&block, 0));
    block = nuvaskoe_block_read(18, 0x40, three + 12, 7);
    CHECK(block.block_type == 18 && block.verdict == NUVASKOE_VERDICT_BAD_SIZE && no_fields(&block, 0));
}

static void check_refusals(void)
{
    uint8_t past[sizeof three];
    uint32_t out[6] = {7, 7, 7, 7, 7, 7};
    nuvaskoe_packet packet;
    nuvaskoe_part part = nuvaskoe_packet_body(p12, sizeof p12, 1);
    nuvaskoe_written listed;

    CHECK(refused(nuvaskoe_packet_block(p12, sizeof p12, 1), NUVASKOE_REFUSAL_NO_SUCH_BLOCK, 0));
    CHECK(part.start == 0 && part.length == 0);

    /* The last block is a word too long: refused whichever block is asked for. */
    memcpy(past, three, sizeof past);
    past[27] = 3;
    packet = nuvaskoe_packet_read(past, sizeof past);
    CHECK(packet.refusal.number == NUVASKOE_REFUSAL_BLOCK_PAST_END);
    CHECK(packet.refusal.place == 24);
    CHECK(packet.sender == 0 && packet.blocks == 0);
    CHECK(refused(nuvaskoe_packet_block(past, sizeof past, 0), NUVASKOE_REFUSAL_BLOCK_PAST_END, 24));
    CHECK(refused(nuvaskoe_packet_block(past, sizeof past, 9), NUVASKOE_REFUSAL_BLOCK_PAST_END, 24));
    part = nuvaskoe_packet_body(past, sizeof past, 0);
    CHECK(part.start == 0 && part.length == 0);
    listed = nuvaskoe_packet_list(past, sizeof past, out, 6);
    CHECK(listed.refusal.number == NUVASKOE_REFUSAL_BLOCK_PAST_END);
    CHECK(listed.refusal.place == 24);
    CHECK(listed.size == 0);
    CHECK(out[0] == 7 && out[1] == 7 && out[5] == 7);
}

static void check_lists(void)
{
    static const uint32_t untouched[8] = {7, 7, 7, 7, 7, 7, 7, 7};
    static const uint32_t expected[8] = {
        8, NUVASKOE_VERDICT_UNMEASURED, 20, NUVASKOE_VERDICT_UNKNOWN, 24, NUVASKOE_VERDICT_BAD_FLAG, 7, 7
    };
    uint32_t out[8];
    nuvaskoe_written listed;

    memcpy(out, untouched, sizeof out);
    listed = nuvaskoe_packet_list(three, sizeof three, out, 5);
    CHECK(listed.refusal.number == NUVASKOE_REFUSAL_BUFFER_SHORT);
    CHECK(listed.refusal.place == 0);
    CHECK(listed.size == 0);
    CHECK(memcmp(out, untouched, sizeof out) == 0);

    listed = nuvaskoe_packet_list(three, sizeof three, out, 8);
    CHECK(listed.refusal.number == NUVASKOE_OK);
    CHECK(listed.refusal.place == 0);
    CHECK(listed.size == 6);
    CHECK(memcmp(out, expected, sizeof out) == 0);

    memcpy(out, untouched, sizeof out);
    listed = nuvaskoe_packet_list(three, sizeof three, out, 6);
    CHECK(listed.refusal.number == NUVASKOE_OK);
    CHECK(listed.size == 6);
    CHECK(memcmp(out, expected, sizeof out) == 0);
}

int main(void)
{
    check_p12();
    check_kinds();
    check_refusals();
    check_lists();
    return checked("packet.c");
}
