/* choices.c: what counts as a loss, by the caller's choice, through the C boundary: every call that takes an event by each of the
 * three, and by numbers that are none. */
#include <string.h>

#include "check.h"

/* What a buffer holds before a call; no byte of a plan is this. */
#define HELD 0xA5
#define HELD_WORD 0xA5A5A5A5A5A5A5A5u

/* The losses of document 01's first example, of which the last two came late. */
static const uint8_t late[9] = {0, 1, 1, 0, 2, 0, 2, 0, 0};

/* What one choice makes of it: B 3, T 1, Gmin 2, spacing 1,000. */
typedef struct choice {
    uint32_t event;
    size_t over, first, marks;
    uint32_t index;
    uint8_t plan[9];
    uint64_t word;
    uint16_t burst_rate, burst_mean;
} choice;

static const choice choices[3] = {
    {NUVASKOE_EVENT_LOST, 2, 0, 1, 18724, {0, 0, 1, 0, 0, 0, 0, 0, 0}, 0x06, 32768, 2},
    {NUVASKOE_EVENT_DISCARDED, 1, 4, 1, 9362, {0, 0, 0, 0, 0, 0, 1, 0, 0}, 0x50, 21845, 3},
    {NUVASKOE_EVENT_EITHER, 4, 0, 2, 37448, {0, 0, 1, 0, 0, 0, 1, 0, 0}, 0x56, 21845, 6},
};

/* Numbers that are no event, such as would be one if cut to fewer bits among them. */
static const uint32_t no_events[12] = {0, 4, 5, 127, 256, 257, 258, 259, 0x10001, 0x10003, 0x80000001, UINT32_MAX};

static uint8_t out[16];
static uint64_t words[3];

static int is_held(void)
{
    size_t i;
    for (i = 0; i < sizeof out; i++) {
        if (out[i] != HELD) {
            return 0;
        }
    }
    return words[0] == HELD_WORD && words[1] == HELD_WORD && words[2] == HELD_WORD;
}

static int is_setting(nuvaskoe_refusal refusal)
{
    return refusal.number == NUVASKOE_REFUSAL_SETTING && refusal.place == 0;
}

static int same_tally(nuvaskoe_tally one, nuvaskoe_tally other)
{
    return one.gmin == other.gmin && one.spacing == other.spacing && one.event == other.event &&
           memcmp(&one.sums, &other.sums, sizeof one.sums) == 0 &&
           memcmp(&one.stretch, &other.stretch, sizeof one.stretch) == 0;
}

static int figures_are(nuvaskoe_figured answer, const choice *by)
{
    return answer.refusal.number == NUVASKOE_OK && answer.figures.burst_rate == by->burst_rate &&
           answer.figures.gap_rate == 0 && answer.figures.burst_mean == by->burst_mean &&
           answer.figures.burst_variance == 0;
}

static void check_batches(const choice *by)
{
    nuvaskoe_loss loss = nuvaskoe_effective_loss(late, 9, 3, 1, by->event);
    nuvaskoe_marks plan;

    CHECK(loss.refusal.number == NUVASKOE_OK && loss.over == by->over && loss.batches == 7);
    CHECK(loss.index == by->index && loss.found == 1 && loss.first == by->first);
    memset(out, HELD, sizeof out);
    plan = nuvaskoe_resend_plan(late, 9, 3, 1, by->event, out, sizeof out);
    CHECK(plan.refusal.number == NUVASKOE_OK && plan.marks == by->marks);
    CHECK(memcmp(out, by->plan, 9) == 0 && out[9] == HELD && out[15] == HELD);
}

/* The words have a one for each packet counted, and the calls on them no choice. */
static void check_packed(const choice *by)
{
    nuvaskoe_written packed;
    nuvaskoe_loss loss;
    size_t i;

    memset(words, HELD, sizeof words);
    packed = nuvaskoe_trace_pack(late, 9, by->event, words, 3);
    CHECK(packed.refusal.number == NUVASKOE_OK && packed.size == 1);
    CHECK(words[0] == by->word && words[1] == HELD_WORD && words[2] == HELD_WORD);
    loss = nuvaskoe_packed_loss(words, 1, 9, 3, 1);
    CHECK(loss.over == by->over && loss.index == by->index && loss.first == by->first);
    CHECK(nuvaskoe_packed_plan(words, 1, 9, 3, 1, out, 9).marks == by->marks);
    CHECK(memcmp(out, by->plan, 9) == 0);
    CHECK(nuvaskoe_trace_unpack(words, 1, 9, out, 9).size == 9);
    for (i = 0; i < 9; i++) {
        CHECK(out[i] == (by->word >> i & 1));
    }
}

/* A tally closes by each choice; a block is of the lost or of the discarded, and none of either. */
static void check_measured(const choice *by)
{
    nuvaskoe_tallied answer = nuvaskoe_tally_open(2, 1000, by->event);
    nuvaskoe_summary block;
    size_t i;

    CHECK(figures_are(nuvaskoe_figures(late, 9, 2, 1000, by->event), by));
    for (i = 0; i < 9 && answer.refusal.number == NUVASKOE_OK; i++) {
        answer = nuvaskoe_tally_take(answer.tally, late[i]);
    }
    CHECK(answer.refusal.number == NUVASKOE_OK && answer.tally.event == by->event);
    CHECK(answer.tally.sums.packets == 9);
    CHECK(figures_are(nuvaskoe_tally_close(answer.tally), by));
    block = nuvaskoe_tally_block(answer.tally, 7, 3);
    if (by->event == NUVASKOE_EVENT_EITHER) {
        CHECK(is_setting(block.refusal) && block.block_type == 0);
        CHECK(block.loss.flag == 0 && block.loss.source == 0 && block.discard.flag == 0 && block.discard.source == 0);
        return;
    }
    CHECK(block.refusal.number == NUVASKOE_OK);
    CHECK(block.block_type == (by->event == NUVASKOE_EVENT_LOST ? NUVASKOE_BLOCK_LOSS : NUVASKOE_BLOCK_DISCARD));
}

/* 15 before anything else, good or bad: no byte and no word is written. */
static void check_no_event_of_traces(uint32_t event)
{
    static const uint8_t bad[4] = {0, 1, 2, 3};
    nuvaskoe_loss loss = nuvaskoe_effective_loss(late, 9, 3, 1, event);

    memset(out, HELD, sizeof out);
    memset(words, HELD, sizeof words);
    CHECK(is_setting(loss.refusal) && loss.over == 0 && loss.batches == 0 && loss.index == 0 && loss.found == 0);
    CHECK(is_setting(nuvaskoe_effective_loss(bad, 4, 5, 0, event).refusal));
    CHECK(is_setting(nuvaskoe_effective_loss(bad, 0, 1, 0, event).refusal));
    CHECK(is_setting(nuvaskoe_resend_plan(late, 9, 3, 1, event, out, sizeof out).refusal));
    CHECK(is_setting(nuvaskoe_resend_plan(bad, 4, 5, 0, event, out, 0).refusal));
    CHECK(nuvaskoe_resend_plan(late, 9, 3, 1, event, out, 9).marks == 0);
    CHECK(is_setting(nuvaskoe_trace_pack(late, 9, event, words, 3).refusal));
    CHECK(is_setting(nuvaskoe_trace_pack(bad, 4, event, words, 0).refusal));
    CHECK(is_setting(nuvaskoe_trace_pack(bad, 0, event, words, 3).refusal));
    CHECK(nuvaskoe_trace_pack(late, 9, event, words, 1).size == 0);
    CHECK(is_setting(nuvaskoe_figures(late, 9, 2, 1000, event).refusal));
    CHECK(is_setting(nuvaskoe_figures(bad, 4, 2, 1000, event).refusal));
    CHECK(is_held());
}

/* No tally is handed out, and one that is handed in comes back as given. */
static void check_no_event_of_tallies(uint32_t event)
{
    static const nuvaskoe_tally nothing;
    nuvaskoe_tallied answer = nuvaskoe_tally_open(2, 1000, event);
    nuvaskoe_tally tally = nuvaskoe_tally_open(2, 1000, NUVASKOE_EVENT_EITHER).tally;
    uint8_t packet;

    CHECK(is_setting(answer.refusal) && same_tally(answer.tally, nothing));
    tally = nuvaskoe_tally_take(tally, 1).tally;
    tally.event = event;
    for (packet = 0; packet <= 3; packet++) {
        answer = nuvaskoe_tally_take(tally, packet);
        CHECK(is_setting(answer.refusal) && same_tally(answer.tally, tally));
    }
    CHECK(is_setting(nuvaskoe_tally_close(tally).refusal));
    CHECK(is_setting(nuvaskoe_tally_block(tally, 7, 3).refusal));
}

/* Loss RLE has received and lost packets alone: its writer refuses a discarded one still, and packing by no choice does. */
static void check_discarded(void)
{
    uint8_t packet[32], before[32];
    nuvaskoe_written added;
    size_t i;

    memset(packet, HELD, sizeof packet);
    CHECK(nuvaskoe_packet_new(1, packet, sizeof packet).size == 8);
    memcpy(before, packet, sizeof packet);
    added = nuvaskoe_packet_add_rle(packet, sizeof packet, 5, 7, late, 9);
    CHECK(added.refusal.number == NUVASKOE_REFUSAL_TRACE_BYTE && added.refusal.place == 4 && added.size == 0);
    CHECK(memcmp(packet, before, sizeof packet) == 0);
    for (i = 0; i < 3; i++) {
        CHECK(nuvaskoe_trace_pack(late, 9, choices[i].event, words, 1).refusal.number == NUVASKOE_OK);
    }
}

int main(void)
{
    size_t i;
    for (i = 0; i < 3; i++) {
        check_batches(&choices[i]);
        check_packed(&choices[i]);
        check_measured(&choices[i]);
    }
    for (i = 0; i < sizeof no_events / sizeof no_events[0]; i++) {
        check_no_event_of_traces(no_events[i]);
        check_no_event_of_tallies(no_events[i]);
    }
    check_discarded();
    return checked("choices.c");
}
