/*
 * report.c: a card and a trace made into a report packet and a resend plan.
 *
 *     cc report.c $(pkg-config --cflags --libs nuvaskoe) && ./a.out
 */
#include <stdio.h>
#include <string.h>

#include <nuvaskoe.h>

static const uint8_t trace[] = {0, 1, 1, 0, 1, 0, 1, 0, 0, 2, 0, 0};

/* Says why a call refused, and whether it did. */
static int told(const char *what, nuvaskoe_refusal refusal)
{
    if (refusal.number == NUVASKOE_OK) {
        return 0;
    }
    fprintf(stderr, "%s: refused %u at %zu: %s; %s\n", what, (unsigned)refusal.number, refusal.place,
            nuvaskoe_refusal_meaning(refusal.number), nuvaskoe_refusal_advice(refusal.number));
    return 1;
}

int main(int count, char **words)
{
    const char *text = count > 1 ? words[1] : "00200003000010100094";
    nuvaskoe_card card = nuvaskoe_card_read((const uint8_t *)text, strlen(text));
    nuvaskoe_settings set = card.settings;
    nuvaskoe_summary lost;
    nuvaskoe_loss loss;
    nuvaskoe_marks plan;
    uint8_t marks[sizeof trace], packet[64];
    nuvaskoe_measurement span = {2, 100, 100, 111, 786, 0, 51539608};
    nuvaskoe_written written;

    if (told("card", card.refusal)) {
        return 1;
    }
    lost = nuvaskoe_loss_of_trace(trace, sizeof trace, set.gmin, set.spacing, span.source, 2);
    loss = nuvaskoe_effective_loss(trace, sizeof trace, set.batch, set.threshold, NUVASKOE_EVENT_LOST);
    plan = nuvaskoe_resend_plan(trace, sizeof trace, set.batch, set.threshold, NUVASKOE_EVENT_LOST, marks, sizeof marks);
    if (told("block 17", lost.refusal) || told("effective loss", loss.refusal) || told("plan", plan.refusal)) {
        return 1;
    }
    printf("burst rate %u of %u, mean %u ms\n", lost.loss.burst_rate, NUVASKOE_RATE_MAX, lost.loss.burst_mean);
    printf("%zu of %zu batches over, index %u\n", loss.over, loss.batches, (unsigned)loss.index);
    printf("%zu to resend\n", plan.marks);

    nuvaskoe_packet_new(1, packet, sizeof packet);
    nuvaskoe_packet_add_measurement(packet, sizeof packet, span);
    written = nuvaskoe_packet_add_loss(packet, sizeof packet, lost.loss);
    if (told("packet", written.refusal)) {
        return 1;
    }
    printf("a packet of %zu bytes, %zu blocks\n", written.size, nuvaskoe_packet_read(packet, written.size).blocks);
    return 0;
}
