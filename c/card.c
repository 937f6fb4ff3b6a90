/* card.c: the settings card through the C boundary, by plain comparisons. */
#include <string.h>

#include "check.h"

static const nuvaskoe_settings p10_settings = {16, 100, 10, 400};
static const char p10[] = "01600100000100040096";

/* A card is 20 bytes, without the zero that ends a C string. */
static nuvaskoe_card read_text(const char *text)
{
    return nuvaskoe_card_read((const uint8_t *)text, strlen(text));
}

/* A refused reading gives its number, place 0 and no settings. */
static int refused(nuvaskoe_card card, uint32_t number)
{
    return card.refusal.number == number && card.refusal.place == 0 &&
           card.settings.gmin == 0 && card.settings.batch == 0 &&
           card.settings.threshold == 0 && card.settings.spacing == 0;
}

static int all_bytes(const uint8_t *bytes, size_t length, uint8_t value)
{
    size_t i;
    for (i = 0; i < length; i++) {
        if (bytes[i] != value) {
            return 0;
        }
    }
    return 1;
}

static void check_reading(void)
{
    nuvaskoe_card card = read_text(p10);
    CHECK(card.refusal.number == NUVASKOE_OK);
    CHECK(card.refusal.place == 0);
    CHECK(card.settings.gmin == 16);
    CHECK(card.settings.batch == 100);
    CHECK(card.settings.threshold == 10);
    CHECK(card.settings.spacing == 400);

    /* P11 */
    CHECK(refused(read_text("01600100000010040096"), NUVASKOE_REFUSAL_CARD_CHECK));
    /* Leaves 1 as its right check 02 does, but each setting has one card. */
    CHECK(refused(read_text("01600001000100040099"), NUVASKOE_REFUSAL_CARD_CHECK));

    CHECK(refused(read_text(""), NUVASKOE_REFUSAL_CARD_DIGITS));
    CHECK(refused(read_text("0160010000010004009"), NUVASKOE_REFUSAL_CARD_DIGITS));
    CHECK(refused(read_text("016001000001000400960"), NUVASKOE_REFUSAL_CARD_DIGITS));
    CHECK(refused(read_text("0160010000010004009:"), NUVASKOE_REFUSAL_CARD_DIGITS));
    /* Gmin 0 with the check that makes the card right. */
    CHECK(refused(read_text("00000100000100040025"), NUVASKOE_REFUSAL_CARD_FIELD));
}

static void check_writing(void)
{
    uint8_t out[24];
    nuvaskoe_written written;

    memset(out, 0xA5, sizeof out);
    written = nuvaskoe_card_write(p10_settings, out, sizeof out);
    CHECK(written.refusal.number == NUVASKOE_OK);
    CHECK(written.refusal.place == 0);
    CHECK(written.size == 20);
    CHECK(memcmp(out, p10, 20) == 0);
    CHECK(all_bytes(out + 20, 4, 0xA5));

    memset(out, 0xA5, sizeof out);
    written = nuvaskoe_card_write(p10_settings, out, 20);
    CHECK(written.refusal.number == NUVASKOE_OK);
    CHECK(written.size == 20);
    CHECK(memcmp(out, p10, 20) == 0);
    CHECK(all_bytes(out + 20, 4, 0xA5));
}

static void check_refused_writing(void)
{
    uint8_t out[24];
    nuvaskoe_settings settings = p10_settings;
    nuvaskoe_written written;

    memset(out, 0xA5, sizeof out);
    written = nuvaskoe_card_write(settings, out, 19);
    CHECK(written.refusal.number == NUVASKOE_REFUSAL_BUFFER_SHORT);
    CHECK(written.refusal.place == 0);
    CHECK(written.size == 0);
    CHECK(all_bytes(out, sizeof out, 0xA5));

    /* Both refusals apply: 15 comes before 8. */
    settings.batch = 1025;
    written = nuvaskoe_card_write(settings, out, 19);
    CHECK(written.refusal.number == NUVASKOE_REFUSAL_SETTING);
    CHECK(written.refusal.place == 0);
    CHECK(written.size == 0);
    CHECK(all_bytes(out, sizeof out, 0xA5));

    written = nuvaskoe_card_write(settings, out, sizeof out);
    CHECK(written.refusal.number == NUVASKOE_REFUSAL_SETTING);
    CHECK(written.size == 0);
    CHECK(all_bytes(out, sizeof out, 0xA5));
}

int main(void)
{
    check_reading();
    check_writing();
    check_refused_writing();
    return checked("card.c");
}
