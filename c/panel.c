/* panel.c: the front panel through the C boundary, by plain comparisons. A float is compared by its bits too, since 0.0
 * equals -0.0. */
#include <string.h>

#include "check.h"

/* A loss block of source 5 before its measurement, and a discard block of source 6, which has none. */
static const uint8_t packet[68] = {
    0x80, 0xCF, 0x00, 0x10, 0x00, 0x00, 0x00, 0x01,
    0x11, 0x40, 0x00, 0x03, 0x00, 0x00, 0x00, 0x05, 0x40, 0x00, 0xFF, 0xFF, 0x00, 0x00, 0x00, 0x00,
    0x0E, 0x00, 0x00, 0x07, 0x00, 0x00, 0x00, 0x05, 0, 0, 0, 0, 0, 0, 0, 0, 0, 0, 0, 0, 0, 0, 0, 0, 0, 0, 0, 0, 0, 0, 0, 0,
    0x12, 0x40, 0x00, 0x02, 0x00, 0x00, 0x00, 0x06, 0x40, 0x00, 0x40, 0x00
};

static int same(float one, float other)
{
    return memcmp(&one, &other, sizeof one) == 0;
}

static int lit(nuvaskoe_needle needle, float position)
{
    return needle.lit == 1 && same(needle.position, position);
}

static int unlit(nuvaskoe_needle needle)
{
    return needle.lit == 0 && same(needle.position, 0.0f);
}

static int dark(nuvaskoe_panel panel)
{
    return unlit(panel.burst) && unlit(panel.gap) && panel.lamp == 0;
}

static nuvaskoe_panel of_loss(uint8_t flag, uint16_t burst_rate, uint16_t gap_rate)
{
    nuvaskoe_loss_summary block;
    memset(&block, 0xFF, sizeof block);
    block.flag = flag;
    block.burst_rate = burst_rate;
    block.gap_rate = gap_rate;
    return nuvaskoe_panel_of_loss(block);
}

static nuvaskoe_panel of_discard(uint8_t flag, uint16_t burst_rate, uint16_t gap_rate)
{
    nuvaskoe_discard_summary block;
    memset(&block, 0xFF, sizeof block);
    block.flag = flag;
    block.burst_rate = burst_rate;
    block.gap_rate = gap_rate;
    return nuvaskoe_panel_of_discard(block);
}

static void check_given(void)
{
    nuvaskoe_panel panel = of_loss(1, 0, NUVASKOE_RATE_MAX);
    CHECK(lit(panel.burst, 0.0f) && lit(panel.gap, 1.0f) && panel.lamp == 1);
    panel = of_discard(3, 1, NUVASKOE_UNAVAILABLE);
    CHECK(lit(panel.burst, 1.0f / 32768.0f) && unlit(panel.gap) && panel.lamp == 1);
    panel = of_discard(2, NUVASKOE_UNAVAILABLE, 24576);
    CHECK(unlit(panel.burst) && lit(panel.gap, 0.75f) && panel.lamp == 1);
    CHECK(dark(of_loss(1, NUVASKOE_UNAVAILABLE, NUVASKOE_UNAVAILABLE)));
    CHECK(dark(of_loss(0, 0, 0)));
    CHECK(dark(of_loss(4, 0, 0)));
    CHECK(dark(of_loss(1, 32769, 0)));
    CHECK(dark(of_discard(1, 0, 65534)));
}

static void check_rates(void)
{
    uint32_t rate;
    float before = -1.0f;
    for (rate = 0; rate <= 65535; rate++) {
        nuvaskoe_panel panel = of_loss(1, (uint16_t)rate, NUVASKOE_UNAVAILABLE);
        if (rate <= NUVASKOE_RATE_MAX) {
            CHECK(panel.burst.lit == 1 && (double)panel.burst.position * 32768.0 == (double)rate);
            CHECK(before < panel.burst.position && unlit(panel.gap) && panel.lamp == 1);
            before = panel.burst.position;
        } else {
            CHECK(dark(panel));
        }
    }
}

static void check_read(void)
{
    nuvaskoe_block block = nuvaskoe_packet_block(packet, sizeof packet, 0);
    nuvaskoe_panel panel = nuvaskoe_panel_of_packet(packet, sizeof packet, 0);
    CHECK(lit(panel.burst, 0.5f) && unlit(panel.gap) && panel.lamp == 1);
    panel = nuvaskoe_panel_of_read(block);
    CHECK(lit(panel.burst, 0.5f) && unlit(panel.gap) && panel.lamp == 1);
    /* A block that a cut to 16 bits would show. */
    block.fields[NUVASKOE_FIELD_LOSS_GAP_RATE] = 65536;
    CHECK(dark(nuvaskoe_panel_of_read(block)));

    /* A measurement, a block dropped for D4, and no block. */
    CHECK(dark(nuvaskoe_panel_of_packet(packet, sizeof packet, 1)));
    CHECK(dark(nuvaskoe_panel_of_packet(packet, sizeof packet, 2)));
    CHECK(dark(nuvaskoe_panel_of_packet(packet, sizeof packet, 3)));
    CHECK(dark(nuvaskoe_panel_of_packet(packet, sizeof packet - 4, 0)));
    CHECK(dark(nuvaskoe_panel_of_packet(NULL, 0, 0)));
    CHECK(dark(nuvaskoe_panel_of_read(nuvaskoe_packet_block(packet, sizeof packet, 2))));
    CHECK(dark(nuvaskoe_panel_of_read(nuvaskoe_packet_block(packet, sizeof packet, 3))));
    /* By itself the dropped block needs no measurement. */
    panel = nuvaskoe_panel_of_read(nuvaskoe_block_read(18, 0x40, packet + 60, 8));
    CHECK(lit(panel.burst, 0.5f) && lit(panel.gap, 0.5f) && panel.lamp == 1);
}

int main(void)
{
    check_given();
    check_rates();
    check_read();
    return checked("panel.c");
}
