/* packed.c: packed traces through the C boundary, by plain comparisons: traces packed by each event and unpacked, and the effective
 * loss and the plan of packed ones beside those of the same trace in bytes. */
#include <string.h>

#include "check.h"

#define WORD 64
#define WORDS_MAX (NUVASKOE_TRACE_MAX / WORD)

/* What a buffer holds before a call; no byte of a trace or of a plan is this. */
#define HELD 0xA5
#define HELD_WORD 0xA5A5A5A5A5A5A5A5u

/* The losses of document 01's first example, packets 1, 2, 4 and 6, and the plan for B 3 and T 1. */
static const uint8_t losses[9] = { 0, 1, 1, 0, 1, 0, 1, 0, 0 };
static const uint64_t their_word = 2 + 4 + 16 + 64;
static const uint8_t its_plan[9] = { 0, 0, 1, 0, 0, 0, 1, 0, 0 };

static uint8_t trace[NUVASKOE_TRACE_MAX + 1];
static uint8_t out[NUVASKOE_TRACE_MAX + 4];
static uint8_t other[NUVASKOE_TRACE_MAX + 4];
static uint64_t words[WORDS_MAX + 2];

static int refused(nuvaskoe_written written, uint32_t number, size_t place)
{
    return written.refusal.number == number && written.refusal.place == place && written.size == 0;
}

static int answered(nuvaskoe_written written, size_t size)
{
    return written.refusal.number == NUVASKOE_OK && written.refusal.place == 0 && written.size == size;
}

static int loss_refused(nuvaskoe_loss answer, uint32_t number, size_t place)
{
    return answer.refusal.number == number && answer.refusal.place == place && answer.over == 0 &&
           answer.batches == 0 && answer.first == 0 && answer.index == 0 && answer.found == 0;
}

static int same_loss(nuvaskoe_loss one, nuvaskoe_loss another)
{
    return one.refusal.number == another.refusal.number && one.refusal.place == another.refusal.place &&
           one.over == another.over && one.batches == another.batches && one.first == another.first &&
           one.index == another.index && one.found == another.found;
}

static int plan_refused(nuvaskoe_marks answer, uint32_t number, size_t place)
{
    return answer.refusal.number == number && answer.refusal.place == place && answer.marks == 0;
}

static int marked(nuvaskoe_marks answer, size_t marks)
{
    return answer.refusal.number == NUVASKOE_OK && answer.refusal.place == 0 && answer.marks == marks;
}

/* The bytes of out, and the words, from these numbers on are as they were before any call. */
static int held(size_t from)
{
    size_t i;
    for (i = from; i < sizeof out; i++) {
        if (out[i] != HELD) {
            return 0;
        }
    }
    return 1;
}

static int words_held(size_t from)
{
    size_t i;
    for (i = from; i < WORDS_MAX + 2; i++) {
        if (words[i] != HELD_WORD) {
            return 0;
        }
    }
    return 1;
}

static void hold(void)
{
    memset(out, HELD, sizeof out);
    memset(words, HELD, sizeof words);
}

static void check_examples(void)
{
    nuvaskoe_loss loss;

    hold();
    CHECK(answered(nuvaskoe_trace_pack(losses, 9, NUVASKOE_EVENT_LOST, words, WORDS_MAX + 2), 1));
    CHECK(words[0] == their_word && words_held(1));
    CHECK(answered(nuvaskoe_trace_unpack(&their_word, 1, 9, out, sizeof out), 9));
    CHECK(memcmp(out, losses, 9) == 0 && held(9));

    loss = nuvaskoe_packed_loss(&their_word, 1, 9, 3, 1);
    CHECK(loss.refusal.number == NUVASKOE_OK && loss.over == 4 && loss.batches == 7);
    CHECK(loss.index == 37448 && loss.found == 1 && loss.first == 0);
    hold();
    CHECK(marked(nuvaskoe_packed_plan(&their_word, 1, 9, 3, 1, out, sizeof out), 2));
    CHECK(memcmp(out, its_plan, 9) == 0 && held(9));

    /* The last packet of one word and the first of the next. */
    words[0] = (uint64_t)1 << 63;
    words[1] = 1;
    loss = nuvaskoe_packed_loss(words, 2, 65, 2, 1);
    CHECK(loss.over == 1 && loss.batches == 64 && loss.index == 1023 && loss.found == 1 && loss.first == 63);
    CHECK(marked(nuvaskoe_packed_plan(words, 2, 65, 2, 1, out, 65), 1));
    CHECK(out[64] == 1 && memchr(out, 1, 64) == NULL);
}

/* Whether an event counts a packet. */
static uint8_t counts(uint32_t event, uint8_t packet)
{
    return (packet == 1 && event != NUVASKOE_EVENT_DISCARDED) || (packet == 2 && event != NUVASKOE_EVENT_LOST);
}

/* The trace packed by an event: bit by bit, unpacked again, and the byte form's answers by that event. */
static void check_form(size_t packets, uint32_t event)
{
    size_t needed = (packets + WORD - 1) / WORD, i;
    uint32_t batch = (uint32_t)(1 + packets / 2);
    nuvaskoe_loss loss = nuvaskoe_effective_loss(trace, packets, batch, 3, event);
    size_t marks;

    hold();
    CHECK(answered(nuvaskoe_trace_pack(trace, packets, event, words, needed), needed) && words_held(needed));
    for (i = 0; i < WORD * needed; i++) {
        CHECK((words[i / WORD] >> (i % WORD) & 1) == (i < packets ? counts(event, trace[i]) : 0));
    }
    CHECK(answered(nuvaskoe_trace_unpack(words, needed, packets, out, packets), packets) && held(packets));
    for (i = 0; i < packets; i++) {
        CHECK(out[i] == counts(event, trace[i]));
    }
    CHECK(loss.refusal.number == NUVASKOE_OK);
    CHECK(same_loss(nuvaskoe_packed_loss(words, needed, packets, batch, 3), loss));
    memset(other, HELD, sizeof other);
    marks = nuvaskoe_resend_plan(trace, packets, batch, 3, event, other, sizeof other).marks;
    CHECK(marked(nuvaskoe_packed_plan(words, needed, packets, batch, 3, out, sizeof out), marks));
    CHECK(memcmp(out, other, sizeof out) == 0);
}

/* Every number of packets up to some words, received, lost and discarded ones mixed. */
static void check_both_forms(void)
{
    size_t packets, i;
    uint32_t event;
    for (packets = 1; packets <= 200; packets++) {
        for (i = 0; i < packets; i++) {
            trace[i] = (uint8_t)((i * i / 4 + packets) % 3);
        }
        for (event = NUVASKOE_EVENT_LOST; event <= NUVASKOE_EVENT_EITHER; event++) {
            check_form(packets, event);
        }
    }
}

/* Words behind the last needed one, whatever they hold: they have no say, and no word that is read is changed. */
static void check_words_behind(void)
{
    uint64_t more[4] = {0, 1, 0, 0};
    uint64_t before[4];
    nuvaskoe_loss loss = nuvaskoe_packed_loss(more, 2, 65, 2, 0);

    more[2] = more[3] = UINT64_MAX;
    memcpy(before, more, sizeof more);
    hold();
    CHECK(same_loss(nuvaskoe_packed_loss(more, 4, 65, 2, 0), loss) && loss.over == 1);
    CHECK(answered(nuvaskoe_trace_unpack(more, 4, 65, out, sizeof out), 65));
    CHECK(out[64] == 1 && memchr(out, 1, 64) == NULL && held(65));
    CHECK(marked(nuvaskoe_packed_plan(more, 4, 65, 2, 0, out, sizeof out), 1) && held(65));
    CHECK(memcmp(before, more, sizeof more) == 0);
    /* 128 packets fill two words, and no bit is past the end. */
    more[1] = UINT64_MAX;
    CHECK(answered(nuvaskoe_trace_unpack(more, 4, 128, out, sizeof out), 128));
    CHECK(refused(nuvaskoe_trace_unpack(more, 4, 127, out, sizeof out), NUVASKOE_REFUSAL_TRACE_BYTE, 127));
}

/* Each refusal of packing and unpacking beside those that come after it. */
static void check_refusals(void)
{
    static const uint64_t full[2] = {UINT64_MAX, UINT64_MAX};
    uint32_t event;

    hold();
    memset(trace, 0, sizeof trace);
    for (event = NUVASKOE_EVENT_LOST; event <= NUVASKOE_EVENT_EITHER; event++) {
        trace[3] = 3;
        CHECK(refused(nuvaskoe_trace_pack(trace, 0, event, words, 0), NUVASKOE_REFUSAL_TRACE_LENGTH, 0));
        CHECK(refused(nuvaskoe_trace_pack(trace, NUVASKOE_TRACE_MAX + 1, event, words, 0), NUVASKOE_REFUSAL_TRACE_LENGTH, 0));
        CHECK(refused(nuvaskoe_trace_pack(trace, 65, event, words, 1), NUVASKOE_REFUSAL_TRACE_BYTE, 3));
        trace[3] = 2;
        CHECK(refused(nuvaskoe_trace_pack(trace, 65, event, words, 1), NUVASKOE_REFUSAL_BUFFER_SHORT, 0));
        CHECK(refused(nuvaskoe_trace_pack(trace, NUVASKOE_TRACE_MAX, event, words, WORDS_MAX - 1), NUVASKOE_REFUSAL_BUFFER_SHORT, 0));
    }

    CHECK(refused(nuvaskoe_trace_unpack(full, 0, 0, out, 0), NUVASKOE_REFUSAL_TRACE_LENGTH, 0));
    CHECK(refused(nuvaskoe_trace_unpack(full, 2, NUVASKOE_TRACE_MAX + 1, out, 0), NUVASKOE_REFUSAL_TRACE_LENGTH, 0));
    CHECK(refused(nuvaskoe_trace_unpack(full, 2, SIZE_MAX, out, sizeof out), NUVASKOE_REFUSAL_TRACE_LENGTH, 0));
    CHECK(refused(nuvaskoe_trace_unpack(full, 1, 65, out, 0), NUVASKOE_REFUSAL_BUFFER_SHORT, 0));
    CHECK(refused(nuvaskoe_trace_unpack(full, 2, 65, out, 0), NUVASKOE_REFUSAL_TRACE_BYTE, 65));
    CHECK(refused(nuvaskoe_trace_unpack(full, 2, 128, out, 127), NUVASKOE_REFUSAL_BUFFER_SHORT, 0));
    CHECK(held(0) && words_held(0));
}

/* The same of the two calls with settings. */
static void check_batch_refusals(void)
{
    static const uint64_t past[2] = {0, 7};

    hold();
    CHECK(loss_refused(nuvaskoe_packed_loss(past, 0, 0, 0, 0), NUVASKOE_REFUSAL_SETTING, 0));
    CHECK(loss_refused(nuvaskoe_packed_loss(past, 0, 0, 1, 1025), NUVASKOE_REFUSAL_SETTING, 0));
    CHECK(loss_refused(nuvaskoe_packed_loss(past, 0, 0, 1024, 0), NUVASKOE_REFUSAL_TRACE_LENGTH, 0));
    CHECK(loss_refused(nuvaskoe_packed_loss(past, 1, 66, 1024, 0), NUVASKOE_REFUSAL_BUFFER_SHORT, 0));
    CHECK(loss_refused(nuvaskoe_packed_loss(past, 2, 65, 1024, 0), NUVASKOE_REFUSAL_TRACE_BYTE, 65));
    CHECK(loss_refused(nuvaskoe_packed_loss(past, 2, 67, 68, 0), NUVASKOE_REFUSAL_BATCH_LENGTH, 0));

    CHECK(plan_refused(nuvaskoe_packed_plan(past, 0, 0, 1025, 0, out, 0), NUVASKOE_REFUSAL_SETTING, 0));
    CHECK(plan_refused(nuvaskoe_packed_plan(past, 2, NUVASKOE_TRACE_MAX + 1, 1, 0, out, 0), NUVASKOE_REFUSAL_TRACE_LENGTH, 0));
    CHECK(plan_refused(nuvaskoe_packed_plan(past, 1, 66, 1024, 0, out, 0), NUVASKOE_REFUSAL_BUFFER_SHORT, 0));
    CHECK(plan_refused(nuvaskoe_packed_plan(past, 2, 66, 1024, 0, out, 0), NUVASKOE_REFUSAL_TRACE_BYTE, 66));
    CHECK(plan_refused(nuvaskoe_packed_plan(past, 2, 67, 68, 0, out, 0), NUVASKOE_REFUSAL_BATCH_LENGTH, 0));
    CHECK(plan_refused(nuvaskoe_packed_plan(past, 2, 67, 67, 0, out, 66), NUVASKOE_REFUSAL_BUFFER_SHORT, 0));
    CHECK(held(0));
    CHECK(marked(nuvaskoe_packed_plan(past, 2, 67, 67, 0, out, 67), 3) && held(67));
}

/* The most packets, all lost: counts that no 16 bits hold. */
static void check_longest(void)
{
    nuvaskoe_loss loss;

    hold();
    memset(trace, 1, sizeof trace);
    CHECK(answered(nuvaskoe_trace_pack(trace, NUVASKOE_TRACE_MAX, NUVASKOE_EVENT_LOST, words, WORDS_MAX + 2), WORDS_MAX));
    CHECK(words[0] == UINT64_MAX && words[WORDS_MAX - 1] == UINT64_MAX && words_held(WORDS_MAX));
    loss = nuvaskoe_packed_loss(words, WORDS_MAX, NUVASKOE_TRACE_MAX, 1, 0);
    CHECK(loss.over == 65536 && loss.batches == 65536 && loss.index == 65535 && loss.first == 0);
    CHECK(marked(nuvaskoe_packed_plan(words, WORDS_MAX, NUVASKOE_TRACE_MAX, 1024, 1000, out, sizeof out), 1536));
    CHECK(held(NUVASKOE_TRACE_MAX));
    CHECK(marked(nuvaskoe_packed_plan(words, WORDS_MAX, NUVASKOE_TRACE_MAX, 1, 0, out, sizeof out), 65536));
    CHECK(memcmp(out, trace, NUVASKOE_TRACE_MAX) == 0 && held(NUVASKOE_TRACE_MAX));
    CHECK(answered(nuvaskoe_trace_unpack(words, WORDS_MAX, NUVASKOE_TRACE_MAX, other, NUVASKOE_TRACE_MAX), NUVASKOE_TRACE_MAX));
    CHECK(memcmp(other, trace, NUVASKOE_TRACE_MAX) == 0);
    CHECK(refused(nuvaskoe_trace_unpack(words, WORDS_MAX, NUVASKOE_TRACE_MAX - 1, other, sizeof other), NUVASKOE_REFUSAL_TRACE_BYTE, 65535));
}

int main(void)
{
    check_examples();
    check_both_forms();
    check_words_behind();
    check_refusals();
    check_batch_refusals();
    check_longest();
    return checked("packed.c");
}
