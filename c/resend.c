/* resend.c: effective loss and the resend plan through the C boundary, by plain comparisons. Lost packets count here; choices.c has
 * the other choices. */
#include <string.h>

#include "check.h"

/* What a buffer holds before a call; no byte of a plan is this. */
#define HELD 0xA5

/* The losses of document 01's first example, and the plan for B 3 and T 1. */
static const uint8_t losses[9] = { 0, 1, 1, 0, 1, 0, 1, 0, 0 };
static const uint8_t its_plan[9] = { 0, 0, 1, 0, 0, 0, 1, 0, 0 };

static const uint8_t received[3] = { 0, 0, 0 };
static const uint8_t lost[3] = { 1, 1, 1 };

static uint8_t trace[NUVASKOE_TRACE_MAX + 1];
static uint8_t out[NUVASKOE_TRACE_MAX + 4];

static nuvaskoe_loss loss_of(const uint8_t *packets, size_t count, uint32_t batch, uint32_t threshold)
{
    return nuvaskoe_effective_loss(packets, count, batch, threshold, NUVASKOE_EVENT_LOST);
}

static nuvaskoe_marks plan_of(const uint8_t *packets, size_t count, uint32_t batch, uint32_t threshold, uint8_t *room, size_t size)
{
    return nuvaskoe_resend_plan(packets, count, batch, threshold, NUVASKOE_EVENT_LOST, room, size);
}

static int loss_is(nuvaskoe_loss answer, size_t over, size_t batches, uint32_t index)
{
    return answer.refusal.number == NUVASKOE_OK && answer.refusal.place == 0 &&
           answer.over == over && answer.batches == batches && answer.index == index;
}

static int first_is(nuvaskoe_loss answer, size_t first)
{
    return answer.found == 1 && answer.first == first;
}

static int none_over(nuvaskoe_loss answer)
{
    return answer.over == 0 && answer.index == 0 && answer.found == 0 && answer.first == 0;
}

static int loss_refused(nuvaskoe_loss answer, uint32_t number, size_t place)
{
    return answer.refusal.number == number && answer.refusal.place == place &&
           answer.batches == 0 && none_over(answer);
}

static int marked(nuvaskoe_marks answer, size_t marks)
{
    return answer.refusal.number == NUVASKOE_OK && answer.refusal.place == 0 &&
           answer.marks == marks;
}

static int plan_refused(nuvaskoe_marks answer, uint32_t number, size_t place)
{
    return answer.refusal.number == number && answer.refusal.place == place &&
           answer.marks == 0;
}

/* The bytes of out from number `from` on are as they were before any call. */
static int held(size_t from)
{
    size_t i;
    for (i = from; i < sizeof out; i++) {
        if (out[i] != HELD) {
            return 0;
        }
    }
    return 1;
}

static void check_examples(void)
{
    nuvaskoe_loss loss = loss_of(losses, 9, 3, 1);

    CHECK(loss_is(loss, 4, 7, 37448) && first_is(loss, 0));
    loss = loss_of(received, 3, 3, 0);
    CHECK(loss_is(loss, 0, 1, 0) && none_over(loss));
    loss = loss_of(lost, 3, 1, 0);
    CHECK(loss_is(loss, 3, 3, 65535) && first_is(loss, 0));
    CHECK(loss_refused(loss_of(lost, 1, 2, 0), NUVASKOE_REFUSAL_BATCH_LENGTH, 0));

    memset(out, HELD, sizeof out);
    CHECK(marked(plan_of(losses, 9, 3, 1, out, sizeof out), 2));
    CHECK(memcmp(out, its_plan, 9) == 0);
    CHECK(held(9));
    CHECK(marked(plan_of(received, 3, 3, 0, out, 3), 0));
    CHECK(memcmp(out, received, 3) == 0 && memcmp(out + 3, its_plan + 3, 6) == 0);
    CHECK(marked(plan_of(lost, 3, 1, 0, out, 3), 3));
    CHECK(memcmp(out, lost, 3) == 0 && memcmp(out + 3, its_plan + 3, 6) == 0);
}

/* With the plan's packets received no batch is over, and as many losses as allowed are not. */
static void check_resent(void)
{
    uint8_t resent[9];
    nuvaskoe_loss loss;
    size_t i;

    for (i = 0; i < 9; i++) {
        resent[i] = its_plan[i] ? 0 : losses[i];
    }
    loss = loss_of(resent, 9, 3, 1);
    CHECK(loss_is(loss, 0, 7, 0) && none_over(loss));
    loss = loss_of(resent, 9, 3, 0);
    CHECK(loss_is(loss, 5, 7, 46810) && first_is(loss, 0));

    /* By lost only a discarded packet is no loss, and a batch may be the whole trace. */
    resent[1] = 2;
    loss = loss_of(resent, 9, 3, 0);
    CHECK(loss_is(loss, 3, 7, 28086) && first_is(loss, 2));
    loss = loss_of(resent, 9, 9, 0);
    CHECK(loss_is(loss, 1, 1, 65535) && first_is(loss, 0));
}

/* Each refusal beside those that come after it. */
static void check_refusals(void)
{
    static const uint8_t bad[5] = { 0, 1, 2, 3, 255 };

    memset(trace, 3, sizeof trace);
    memset(out, HELD, sizeof out);
    CHECK(loss_refused(loss_of(trace, 0, 0, 0), NUVASKOE_REFUSAL_SETTING, 0));
    CHECK(loss_refused(loss_of(trace, 0, 1025, 0), NUVASKOE_REFUSAL_SETTING, 0));
    CHECK(loss_refused(loss_of(trace, 0, 1, 1025), NUVASKOE_REFUSAL_SETTING, 0));
    CHECK(loss_refused(loss_of(trace, 0, 1024, 1024), NUVASKOE_REFUSAL_TRACE_LENGTH, 0));
    CHECK(loss_refused(loss_of(trace, NUVASKOE_TRACE_MAX + 1, 1, 0), NUVASKOE_REFUSAL_TRACE_LENGTH, 0));
    CHECK(loss_refused(loss_of(bad, 5, 6, 0), NUVASKOE_REFUSAL_TRACE_BYTE, 3));
    CHECK(loss_refused(loss_of(bad, 3, 4, 0), NUVASKOE_REFUSAL_BATCH_LENGTH, 0));
    CHECK(loss_is(loss_of(bad, 3, 3, 1024), 0, 1, 0));

    CHECK(plan_refused(plan_of(trace, 0, 0, 0, out, 0), NUVASKOE_REFUSAL_SETTING, 0));
    CHECK(plan_refused(plan_of(trace, 0, 1, UINT32_MAX, out, 0), NUVASKOE_REFUSAL_SETTING, 0));
    CHECK(plan_refused(plan_of(trace, 0, 1, 0, out, 0), NUVASKOE_REFUSAL_TRACE_LENGTH, 0));
    CHECK(plan_refused(plan_of(trace, NUVASKOE_TRACE_MAX + 1, 1, 0, out, 0), NUVASKOE_REFUSAL_TRACE_LENGTH, 0));
    CHECK(plan_refused(plan_of(bad, 5, 6, 0, out, 4), NUVASKOE_REFUSAL_TRACE_BYTE, 3));
    CHECK(plan_refused(plan_of(bad, 3, 4, 0, out, 2), NUVASKOE_REFUSAL_BATCH_LENGTH, 0));
    CHECK(plan_refused(plan_of(bad, 3, 3, 0, out, 2), NUVASKOE_REFUSAL_BUFFER_SHORT, 0));
    CHECK(plan_refused(plan_of(losses, 9, 3, 1, out, 8), NUVASKOE_REFUSAL_BUFFER_SHORT, 0));
    CHECK(held(0));
}

/* Counts that no 16 bits hold. */
static void check_longest(void)
{
    nuvaskoe_loss loss;

    memset(trace, 1, sizeof trace);
    memset(out, HELD, sizeof out);
    loss = loss_of(trace, NUVASKOE_TRACE_MAX, 1, 0);
    CHECK(loss_is(loss, 65536, 65536, 65535) && first_is(loss, 0));
    CHECK(plan_refused(plan_of(trace, NUVASKOE_TRACE_MAX, 1, 0, out, NUVASKOE_TRACE_MAX - 1), NUVASKOE_REFUSAL_BUFFER_SHORT, 0));
    CHECK(held(0));
    CHECK(marked(plan_of(trace, NUVASKOE_TRACE_MAX, 1, 0, out, sizeof out), 65536));
    CHECK(memcmp(out, trace, NUVASKOE_TRACE_MAX) == 0);
    CHECK(held(NUVASKOE_TRACE_MAX));
    CHECK(marked(plan_of(trace, NUVASKOE_TRACE_MAX, 1024, 1000, out, NUVASKOE_TRACE_MAX), 1536));

    memset(trace, 2, sizeof trace);
    trace[NUVASKOE_TRACE_MAX - 1] = 1;
    loss = loss_of(trace, NUVASKOE_TRACE_MAX, 1024, 0);
    CHECK(loss_is(loss, 1, 64513, 1) && first_is(loss, 64512));
    trace[NUVASKOE_TRACE_MAX - 1] = 4;
    CHECK(loss_refused(loss_of(trace, NUVASKOE_TRACE_MAX, 1, 0), NUVASKOE_REFUSAL_TRACE_BYTE, 65535));
}

int main(void)
{
    check_examples();
    check_resent();
    check_refusals();
    check_longest();
    return checked("resend.c");
}
