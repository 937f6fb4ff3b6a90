/* figures.c: tallies, figures and their blocks through the C boundary, by plain comparisons. */
#include <string.h>

#include "check.h"

/* P6 of document 01: bursts of three packets and of two, Gmin 2. */
static const uint8_t p6[11] = {1, 0, 1, 0, 0, 1, 0, 0, 0, 1, 1};
/* Bursts of 2, 5 and 9 packets: the variance is the integer part of (3 * 110 - 16 * 16) / 9 = 74 / 9. */
static const uint8_t spread[18] = {1, 1, 0, 1, 1, 1, 1, 1, 0, 1, 1, 1, 1, 1, 1, 1, 1, 1};

static uint8_t longest[NUVASKOE_TRACE_MAX + 1];

static int same_figures(nuvaskoe_burst_figures one, nuvaskoe_burst_figures other)
{
    return one.burst_rate == other.burst_rate && one.gap_rate == other.gap_rate &&
           one.burst_mean == other.burst_mean && one.burst_variance == other.burst_variance;
}

static int figured(nuvaskoe_figured answer, uint16_t burst, uint16_t gap, uint16_t mean, uint16_t variance)
{
    nuvaskoe_burst_figures expected;
    expected.burst_rate = burst;
    expected.gap_rate = gap;
    expected.burst_mean = mean;
    expected.burst_variance = variance;
    return answer.refusal.number == NUVASKOE_OK && answer.refusal.place == 0 &&
           same_figures(answer.figures, expected);
}

/* A refused measuring gives its number and place, and every figure unavailable. */
static int not_figured(nuvaskoe_figured answer, uint32_t number, size_t place)
{
    static const nuvaskoe_burst_figures nothing = {NUVASKOE_UNAVAILABLE, NUVASKOE_UNAVAILABLE, NUVASKOE_UNAVAILABLE, NUVASKOE_UNAVAILABLE};
    return answer.refusal.number == number && answer.refusal.place == place &&
           same_figures(answer.figures, nothing);
}

static int same_tally(nuvaskoe_tally one, nuvaskoe_tally other)
{
    return one.gmin == other.gmin && one.spacing == other.spacing && one.event == other.event &&
           one.sums.packets == other.sums.packets && one.sums.events == other.sums.events &&
           one.sums.burst_packets == other.sums.burst_packets &&
           one.sums.burst_events == other.sums.burst_events && one.sums.bursts == other.sums.bursts &&
           one.sums.durations == other.sums.durations && one.sums.squares == other.sums.squares &&
           one.stretch.events == other.stretch.events && one.stretch.packets == other.stretch.packets &&
           one.stretch.since == other.stretch.since;
}

/* A tally that refuses a packet comes back as given. */
static int not_taken(nuvaskoe_tally tally, uint8_t packet, uint32_t number)
{
    nuvaskoe_tallied answer = nuvaskoe_tally_take(tally, packet);
    return answer.refusal.number == number && answer.refusal.place == 0 && same_tally(answer.tally, tally);
}

/* Every field of its own, in a tally that is sound: 20 packets, three bursts, the last open. */
static nuvaskoe_tally odd_tally(void)
{
    nuvaskoe_tally tally;
    memset(&tally, 0xFF, sizeof tally);
    tally.gmin = 3;
    tally.spacing = 1000;
    tally.event = NUVASKOE_EVENT_LOST;
    tally.sums.packets = 20;
    tally.sums.events = 11;
    tally.sums.burst_packets = 9;
    tally.sums.burst_events = 7;
    tally.sums.bursts = 2;
    tally.sums.durations = 10;
    tally.sums.squares = 53;
    tally.stretch.events = 4;
    tally.stretch.packets = 5;
    tally.stretch.since = 1;
    return tally;
}

static void check_figures(void)
{
    static const uint8_t lost[3] = {1, 1, 1};
    static const uint8_t received[3] = {0, 0, 0};
    static const uint8_t discarded[4] = {2, 1, 2, 0};
    CHECK(figured(nuvaskoe_figures(p6, sizeof p6, 2, 1000, NUVASKOE_EVENT_LOST), 26214, 5461, 2, 0));
    CHECK(figured(nuvaskoe_figures(p6, sizeof p6, 2, 1000, NUVASKOE_EVENT_DISCARDED), NUVASKOE_UNAVAILABLE, 0, NUVASKOE_UNAVAILABLE, NUVASKOE_UNAVAILABLE));
    CHECK(figured(nuvaskoe_figures(spread, sizeof spread, 1, 1000, NUVASKOE_EVENT_LOST), 32768, 0, 5, 8));
    CHECK(figured(nuvaskoe_figures(lost, 3, 16, 1000, NUVASKOE_EVENT_LOST), 32768, NUVASKOE_UNAVAILABLE, 3, 0));
    CHECK(figured(nuvaskoe_figures(lost, 1, 16, 1000, NUVASKOE_EVENT_LOST), NUVASKOE_UNAVAILABLE, 32768, NUVASKOE_UNAVAILABLE, NUVASKOE_UNAVAILABLE));
    CHECK(figured(nuvaskoe_figures(received, 3, 16, 1000, NUVASKOE_EVENT_LOST), NUVASKOE_UNAVAILABLE, 0, NUVASKOE_UNAVAILABLE, NUVASKOE_UNAVAILABLE));
    CHECK(figured(nuvaskoe_figures(discarded, 4, 2, 40000, NUVASKOE_EVENT_DISCARDED), 21845, 0, 120, 0));
    CHECK(figured(nuvaskoe_figures(discarded, 4, 1, 40000, NUVASKOE_EVENT_DISCARDED), NUVASKOE_UNAVAILABLE, 16384, NUVASKOE_UNAVAILABLE, NUVASKOE_UNAVAILABLE));
}

static void check_figures_refused(void)
{
    static const uint32_t events[5] = {0, 4, 257, 0x10001, UINT32_MAX};
    static const uint8_t bad[4] = {0, 2, 3, 255};
    size_t i;
    for (i = 0; i < 5; i++) {
        CHECK(not_figured(nuvaskoe_figures(p6, sizeof p6, 2, 1000, events[i]), NUVASKOE_REFUSAL_SETTING, 0));
        CHECK(not_figured(nuvaskoe_figures(bad, 0, 2, 1000, events[i]), NUVASKOE_REFUSAL_SETTING, 0));
    }
    CHECK(not_figured(nuvaskoe_figures(p6, sizeof p6, 0, 1000, NUVASKOE_EVENT_LOST), NUVASKOE_REFUSAL_SETTING, 0));
    CHECK(not_figured(nuvaskoe_figures(p6, sizeof p6, 256, 1000, NUVASKOE_EVENT_LOST), NUVASKOE_REFUSAL_SETTING, 0));
    CHECK(not_figured(nuvaskoe_figures(p6, sizeof p6, 2, 0, NUVASKOE_EVENT_LOST), NUVASKOE_REFUSAL_SETTING, 0));
    CHECK(not_figured(nuvaskoe_figures(p6, sizeof p6, 2, 40001, NUVASKOE_EVENT_LOST), NUVASKOE_REFUSAL_SETTING, 0));
    CHECK(not_figured(nuvaskoe_figures(bad, 0, 2, 0, NUVASKOE_EVENT_LOST), NUVASKOE_REFUSAL_SETTING, 0));
    CHECK(not_figured(nuvaskoe_figures(bad, 0, 2, 1000, NUVASKOE_EVENT_LOST), NUVASKOE_REFUSAL_TRACE_LENGTH, 0));
    CHECK(not_figured(nuvaskoe_figures(bad, 4, 2, 1000, NUVASKOE_EVENT_LOST), NUVASKOE_REFUSAL_TRACE_BYTE, 2));
    CHECK(not_figured(nuvaskoe_figures(bad + 3, 1, 2, 1000, NUVASKOE_EVENT_LOST), NUVASKOE_REFUSAL_TRACE_BYTE, 0));
}

static void check_longest(void)
{
    nuvaskoe_tallied answer = nuvaskoe_tally_open(255, 40000, NUVASKOE_EVENT_LOST);
    size_t i;
    memset(longest, 1, sizeof longest);
    CHECK(figured(nuvaskoe_figures(longest, NUVASKOE_TRACE_MAX, 255, 40000, NUVASKOE_EVENT_LOST), 32768, NUVASKOE_UNAVAILABLE, NUVASKOE_OVER_RANGE, 0));
    CHECK(figured(nuvaskoe_figures(longest, NUVASKOE_TRACE_MAX, 1, 999, NUVASKOE_EVENT_LOST), 32768, NUVASKOE_UNAVAILABLE, 65470, 0));
    longest[NUVASKOE_TRACE_MAX] = 3;
    CHECK(not_figured(nuvaskoe_figures(longest, NUVASKOE_TRACE_MAX + 1, 1, 999, NUVASKOE_EVENT_LOST), NUVASKOE_REFUSAL_TRACE_LENGTH, 0));
    for (i = 0; i < NUVASKOE_TRACE_MAX && answer.refusal.number == NUVASKOE_OK; i++) {
        answer = nuvaskoe_tally_take(answer.tally, 1);
    }
    CHECK(i == NUVASKOE_TRACE_MAX && answer.refusal.number == NUVASKOE_OK);
    CHECK(answer.tally.sums.packets == NUVASKOE_TRACE_MAX && answer.tally.stretch.packets == NUVASKOE_TRACE_MAX);
    CHECK(figured(nuvaskoe_tally_close(answer.tally), 32768, NUVASKOE_UNAVAILABLE, NUVASKOE_OVER_RANGE, 0));
    CHECK(not_taken(answer.tally, 0, NUVASKOE_REFUSAL_TRACE_LENGTH));
    CHECK(not_taken(answer.tally, 3, NUVASKOE_REFUSAL_TRACE_LENGTH));
    longest[NUVASKOE_TRACE_MAX - 1] = 3;
    CHECK(not_figured(nuvaskoe_figures(longest, NUVASKOE_TRACE_MAX, 1, 999, NUVASKOE_EVENT_LOST), NUVASKOE_REFUSAL_TRACE_BYTE, NUVASKOE_TRACE_MAX - 1));
}

/* A tally closes at every point with the figures of the packets so far. */
static void check_tally(void)
{
    static const nuvaskoe_tally nothing;
    nuvaskoe_tallied answer = nuvaskoe_tally_open(2, 1000, NUVASKOE_EVENT_LOST);
    nuvaskoe_tally expected = nothing;
    size_t i;
    expected.gmin = 2;
    expected.spacing = 1000;
    expected.event = NUVASKOE_EVENT_LOST;
    CHECK(answer.refusal.number == NUVASKOE_OK && same_tally(answer.tally, expected));
    CHECK(figured(nuvaskoe_tally_close(answer.tally), NUVASKOE_UNAVAILABLE, NUVASKOE_UNAVAILABLE, NUVASKOE_UNAVAILABLE, NUVASKOE_UNAVAILABLE));
    for (i = 0; i < sizeof p6; i++) {
        nuvaskoe_figured whole = nuvaskoe_figures(p6, i + 1, 2, 1000, NUVASKOE_EVENT_LOST);
        CHECK(not_taken(answer.tally, 3, NUVASKOE_REFUSAL_TRACE_BYTE));
        CHECK(not_taken(answer.tally, 255, NUVASKOE_REFUSAL_TRACE_BYTE));
        answer = nuvaskoe_tally_take(answer.tally, p6[i]);
        CHECK(answer.refusal.number == NUVASKOE_OK && answer.refusal.place == 0);
        CHECK(whole.refusal.number == NUVASKOE_OK);
        CHECK(same_figures(nuvaskoe_tally_close(answer.tally).figures, whole.figures));
    }
    CHECK(figured(nuvaskoe_tally_close(answer.tally), 26214, 5461, 2, 0));
}

static void check_tally_refused(void)
{
    static const uint32_t settings[6][3] = {{0, 1000, 1},  {256, 1000, 1}, {16, 0, 1},
                                            {16, 40001, 1}, {16, 1000, 0},  {16, 1000, 4}};
    static const nuvaskoe_tally nothing;
    nuvaskoe_tally tally = odd_tally();
    size_t i;
    CHECK(figured(nuvaskoe_tally_close(tally), 25746, 0, 5, 1));
    CHECK(nuvaskoe_tally_take(tally, 0).refusal.number == NUVASKOE_OK);
    for (i = 0; i < 6; i++) {
        nuvaskoe_tallied answer = nuvaskoe_tally_open(settings[i][0], settings[i][1], settings[i][2]);
        CHECK(answer.refusal.number == NUVASKOE_REFUSAL_SETTING && answer.refusal.place == 0);
        CHECK(same_tally(answer.tally, nothing));
        tally.gmin = settings[i][0];
        tally.spacing = settings[i][1];
        tally.event = settings[i][2];
        CHECK(not_taken(tally, 0, NUVASKOE_REFUSAL_SETTING));
        CHECK(not_taken(tally, 3, NUVASKOE_REFUSAL_SETTING));
        CHECK(not_figured(nuvaskoe_tally_close(tally), NUVASKOE_REFUSAL_SETTING, 0));
    }
    tally = odd_tally();
    tally.event = UINT32_MAX;
    CHECK(not_taken(tally, 0, NUVASKOE_REFUSAL_SETTING));
    tally = odd_tally();
    tally.sums.squares = UINT64_MAX;
    CHECK(not_taken(tally, 0, NUVASKOE_REFUSAL_SETTING));
    CHECK(not_figured(nuvaskoe_tally_close(tally), NUVASKOE_REFUSAL_SETTING, 0));
    tally = odd_tally();
    tally.stretch.since = 21;
    CHECK(not_taken(tally, 1, NUVASKOE_REFUSAL_SETTING));
    tally.stretch.since = UINT64_MAX;
    CHECK(not_taken(tally, 1, NUVASKOE_REFUSAL_SETTING));
    tally = nothing;
    CHECK(not_taken(tally, 0, NUVASKOE_REFUSAL_SETTING));
    CHECK(not_figured(nuvaskoe_tally_close(tally), NUVASKOE_REFUSAL_SETTING, 0));
}

/* Blocks hold the figures as given, and those of a trace are added and read back. */
static void check_blocks(void)
{
    nuvaskoe_burst_figures figures = nuvaskoe_figures(p6, sizeof p6, 2, 1000, NUVASKOE_EVENT_LOST).figures;
    nuvaskoe_loss_summary loss = nuvaskoe_loss_block(figures, 0x01020304, 3);
    nuvaskoe_discard_summary discard = nuvaskoe_discard_block(figures, 0x05060708, 2);
    static const uint32_t expected[6] = {3, 0x01020304, 26214, 5461, 2, 0};
    uint8_t packet[36];
    nuvaskoe_block block;
    CHECK(loss.flag == 3 && loss.source == 0x01020304);
    CHECK(loss.burst_rate == 26214 && loss.gap_rate == 5461);
    CHECK(loss.burst_mean == 2 && loss.burst_variance == 0);
    CHECK(discard.flag == 2 && discard.source == 0x05060708);
    CHECK(discard.burst_rate == 26214 && discard.gap_rate == 5461);
    CHECK(nuvaskoe_packet_new(1, packet, sizeof packet).size == 8);
    CHECK(nuvaskoe_packet_add_loss(packet, sizeof packet, loss).size == 24);
    CHECK(nuvaskoe_packet_add_discard(packet, sizeof packet, discard).size == 36);
    block = nuvaskoe_block_read(packet[8], packet[9], packet + 12, 12);
    CHECK(block.block_type == 17 && block.verdict == NUVASKOE_VERDICT_TYPED);
    CHECK(memcmp(block.fields, expected, sizeof expected) == 0);
    figures.burst_rate = 1;
    figures.gap_rate = 32769;
    figures.burst_mean = 65533;
    figures.burst_variance = 4;
    loss = nuvaskoe_loss_block(figures, UINT32_MAX, 255);
    CHECK(loss.flag == 255 && loss.source == UINT32_MAX);
    CHECK(loss.burst_rate == 1 && loss.gap_rate == 32769);
    CHECK(loss.burst_mean == 65533 && loss.burst_variance == 4);
    discard = nuvaskoe_discard_block(figures, 0, 0);
    CHECK(discard.flag == 0 && discard.source == 0);
    CHECK(discard.burst_rate == 1 && discard.gap_rate == 32769);
}

static const nuvaskoe_loss_summary no_loss;
static const nuvaskoe_discard_summary no_discard;

static int same_loss(nuvaskoe_loss_summary one, nuvaskoe_loss_summary other)
{
    return one.flag == other.flag && one.source == other.source && one.burst_rate == other.burst_rate &&
           one.gap_rate == other.gap_rate && one.burst_mean == other.burst_mean &&
           one.burst_variance == other.burst_variance;
}

static int same_discard(nuvaskoe_discard_summary one, nuvaskoe_discard_summary other)
{
    return one.flag == other.flag && one.source == other.source && one.burst_rate == other.burst_rate &&
           one.gap_rate == other.gap_rate;
}

/* A 17 is answered, for source 7 and with flag 3, and the 18 is all 0. */
static int is_loss(nuvaskoe_summary answer, uint16_t burst, uint16_t gap, uint16_t mean, uint16_t variance)
{
    nuvaskoe_loss_summary expected = {3, 7, burst, gap, mean, variance};
    return answer.refusal.number == NUVASKOE_OK && answer.refusal.place == 0 &&
           answer.block_type == NUVASKOE_BLOCK_LOSS && same_loss(answer.loss, expected) &&
           same_discard(answer.discard, no_discard);
}

/* An 18 is answered, in the same way. */
static int is_discard(nuvaskoe_summary answer, uint16_t burst, uint16_t gap)
{
    nuvaskoe_discard_summary expected = {3, 7, burst, gap};
    return answer.refusal.number == NUVASKOE_OK && answer.refusal.place == 0 &&
           answer.block_type == NUVASKOE_BLOCK_DISCARD && same_discard(answer.discard, expected) &&
           same_loss(answer.loss, no_loss);
}

static uint32_t loss_refusal(nuvaskoe_loss_summary block)
{
    uint8_t packet[24];
    nuvaskoe_packet_new(1, packet, sizeof packet);
    return nuvaskoe_packet_add_loss(packet, sizeof packet, block).refusal.number;
}

static uint32_t discard_refusal(nuvaskoe_discard_summary block)
{
    uint8_t packet[20];
    nuvaskoe_packet_new(1, packet, sizeof packet);
    return nuvaskoe_packet_add_discard(packet, sizeof packet, block).refusal.number;
}

/* A refused answer gives its number and place and two blocks that are all 0, which no packet takes. */
static int no_block(nuvaskoe_summary answer, uint32_t number, size_t place)
{
    return answer.refusal.number == number && answer.refusal.place == place && answer.block_type == 0 &&
           same_loss(answer.loss, no_loss) && same_discard(answer.discard, no_discard) &&
           loss_refusal(answer.loss) == NUVASKOE_REFUSAL_BLOCK_VALUE &&
           discard_refusal(answer.discard) == NUVASKOE_REFUSAL_BLOCK_VALUE;
}

/* A 17 is of the lost packets and an 18 of the discarded, also where a trace has both. */
static void check_trace_blocks(void)
{
    static const uint8_t both[5] = {1, 1, 0, 0, 2};
    static const uint8_t discarded[3] = {2, 2, 2};
    CHECK(is_loss(nuvaskoe_loss_of_trace(p6, sizeof p6, 2, 1000, 7, 3), 26214, 5461, 2, 0));
    CHECK(is_discard(nuvaskoe_discard_of_trace(p6, sizeof p6, 2, 1000, 7, 3), NUVASKOE_UNAVAILABLE, 0));
    CHECK(is_loss(nuvaskoe_loss_of_trace(spread, sizeof spread, 1, 1000, 7, 3), 32768, 0, 5, 8));
    CHECK(is_loss(nuvaskoe_loss_of_trace(both, 5, 1, 1000, 7, 3), 32768, 0, 2, 0));
    CHECK(is_discard(nuvaskoe_discard_of_trace(both, 5, 1, 1000, 7, 3), NUVASKOE_UNAVAILABLE, 6553));
    CHECK(is_loss(nuvaskoe_loss_of_trace(discarded, 3, 16, 1000, 7, 3), NUVASKOE_UNAVAILABLE, 0, NUVASKOE_UNAVAILABLE, NUVASKOE_UNAVAILABLE));
    CHECK(is_discard(nuvaskoe_discard_of_trace(discarded, 3, 16, 1000, 7, 3), 32768, NUVASKOE_UNAVAILABLE));
    CHECK(is_loss(nuvaskoe_loss_of_trace(both, 1, 16, 1000, 7, 3), NUVASKOE_UNAVAILABLE, 32768, NUVASKOE_UNAVAILABLE, NUVASKOE_UNAVAILABLE));
    memset(longest, 1, sizeof longest);
    CHECK(is_loss(nuvaskoe_loss_of_trace(longest, NUVASKOE_TRACE_MAX, 255, 40000, 7, 3), 32768, NUVASKOE_UNAVAILABLE, NUVASKOE_OVER_RANGE, 0));
}

static void check_trace_blocks_refused(void)
{
    static const uint8_t bad[4] = {0, 2, 3, 255};
    static const uint32_t settings[4][2] = {{0, 1000}, {256, 1000}, {2, 0}, {2, 40001}};
    size_t i;
    for (i = 0; i < 4; i++) {
        uint32_t gmin = settings[i][0];
        uint32_t spacing = settings[i][1];
        CHECK(no_block(nuvaskoe_loss_of_trace(p6, sizeof p6, gmin, spacing, 7, 3), NUVASKOE_REFUSAL_SETTING, 0));
        CHECK(no_block(nuvaskoe_loss_of_trace(bad, 0, gmin, spacing, 7, 3), NUVASKOE_REFUSAL_SETTING, 0));
        CHECK(no_block(nuvaskoe_discard_of_trace(p6, sizeof p6, gmin, spacing, 7, 3), NUVASKOE_REFUSAL_SETTING, 0));
        CHECK(no_block(nuvaskoe_discard_of_trace(bad, 0, gmin, spacing, 7, 3), NUVASKOE_REFUSAL_SETTING, 0));
    }
    memset(longest, 3, sizeof longest);
    CHECK(no_block(nuvaskoe_loss_of_trace(bad, 0, 2, 1000, 7, 3), NUVASKOE_REFUSAL_TRACE_LENGTH, 0));
    CHECK(no_block(nuvaskoe_loss_of_trace(longest, sizeof longest, 2, 1000, 7, 3), NUVASKOE_REFUSAL_TRACE_LENGTH, 0));
    CHECK(no_block(nuvaskoe_loss_of_trace(bad, 4, 2, 1000, 7, 3), NUVASKOE_REFUSAL_TRACE_BYTE, 2));
    CHECK(no_block(nuvaskoe_discard_of_trace(bad, 0, 2, 1000, 7, 3), NUVASKOE_REFUSAL_TRACE_LENGTH, 0));
    CHECK(no_block(nuvaskoe_discard_of_trace(longest, sizeof longest, 2, 1000, 7, 3), NUVASKOE_REFUSAL_TRACE_LENGTH, 0));
    CHECK(no_block(nuvaskoe_discard_of_trace(bad, 4, 2, 1000, 7, 3), NUVASKOE_REFUSAL_TRACE_BYTE, 2));
}

/* The kind of a tally's block is that of its event; either has none, and so has a number that is no event. */
static void check_tally_block(void)
{
    static const uint32_t events[5] = {0, NUVASKOE_EVENT_EITHER, 4, 257, UINT32_MAX};
    nuvaskoe_tally tally = odd_tally();
    size_t i;
    CHECK(is_loss(nuvaskoe_tally_block(tally, 7, 3), 25746, 0, 5, 1));
    tally.event = NUVASKOE_EVENT_DISCARDED;
    CHECK(is_discard(nuvaskoe_tally_block(tally, 7, 3), 25746, 0));
    for (i = 0; i < 5; i++) {
        tally.event = events[i];
        CHECK(no_block(nuvaskoe_tally_block(tally, 7, 3), NUVASKOE_REFUSAL_SETTING, 0));
    }
    for (i = 1; i <= 2; i++) {
        tally = nuvaskoe_tally_open(16, 1000, (uint32_t)i).tally;
        CHECK(nuvaskoe_tally_block(tally, 7, 3).refusal.number == NUVASKOE_OK);
        tally.spacing = 40001;
        CHECK(no_block(nuvaskoe_tally_block(tally, 7, 3), NUVASKOE_REFUSAL_SETTING, 0));
        tally = odd_tally();
        tally.event = (uint32_t)i;
        tally.sums.squares = UINT64_MAX;
        CHECK(no_block(nuvaskoe_tally_block(tally, 7, 3), NUVASKOE_REFUSAL_SETTING, 0));
    }
}

/* Source and flag are as given, and no flag is refused; a packet takes 1, 2 and 3, and refuses any other with 16. */
static void check_flags(void)
{
    nuvaskoe_tally tally = odd_tally();
    unsigned i;
    for (i = 0; i < 256; i++) {
        uint8_t flag = (uint8_t)i;
        uint32_t added = i >= 1 && i <= 3 ? NUVASKOE_OK : NUVASKOE_REFUSAL_BLOCK_VALUE;
        nuvaskoe_summary lost = nuvaskoe_loss_of_trace(p6, sizeof p6, 2, 1000, UINT32_MAX, flag);
        nuvaskoe_summary discarded = nuvaskoe_discard_of_trace(p6, sizeof p6, 2, 1000, UINT32_MAX, flag);
        nuvaskoe_summary tallied = nuvaskoe_tally_block(tally, UINT32_MAX, flag);
        CHECK(lost.refusal.number == NUVASKOE_OK && lost.loss.flag == flag && lost.loss.source == UINT32_MAX);
        CHECK(discarded.refusal.number == NUVASKOE_OK && discarded.discard.flag == flag && discarded.discard.source == UINT32_MAX);
        CHECK(tallied.refusal.number == NUVASKOE_OK && tallied.loss.flag == flag && tallied.loss.source == UINT32_MAX);
        CHECK(loss_refusal(lost.loss) == added && loss_refusal(tallied.loss) == added);
        CHECK(discard_refusal(discarded.discard) == added);
    }
}

int main(void)
{
    check_figures();
    check_figures_refused();
    check_longest();
    check_tally();
    check_tally_refused();
    check_blocks();
    check_trace_blocks();
    check_trace_blocks_refused();
    check_tally_block();
    check_flags();
    return checked("figures.c");
}
