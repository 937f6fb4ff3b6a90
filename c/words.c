/* words.c: what a program can say of the library: its version, and the words of refusals and reasons. */
#include <string.h>

#include "check.h"

/* Every refusal and reason has its words, and no other number has any. */
static void check_words(void)
{
    uint32_t number;

    for (number = NUVASKOE_REFUSAL_PACKET_SHORT; number <= NUVASKOE_REFUSAL_PACKET_FULL; number++) {
        CHECK(nuvaskoe_refusal_meaning(number)[0] != '\0');
        CHECK(nuvaskoe_refusal_advice(number)[0] != '\0');
    }
    CHECK(strcmp(nuvaskoe_refusal_meaning(NUVASKOE_REFUSAL_CARD_CHECK), "the card's check does not fit") == 0);
    CHECK(nuvaskoe_refusal_meaning(NUVASKOE_OK)[0] == '\0' && nuvaskoe_refusal_advice(NUVASKOE_OK)[0] == '\0');
    CHECK(nuvaskoe_refusal_meaning(NUVASKOE_REFUSAL_PACKET_FULL + 1)[0] == '\0');
    for (number = NUVASKOE_VERDICT_BAD_SIZE; number <= NUVASKOE_VERDICT_BAD_CHUNKS; number++) {
        CHECK(nuvaskoe_reason_meaning(number)[0] != '\0');
        CHECK(nuvaskoe_reason_advice(number)[0] != '\0');
    }
    CHECK(nuvaskoe_reason_meaning(NUVASKOE_VERDICT_TYPED)[0] == '\0');
    CHECK(nuvaskoe_reason_meaning(NUVASKOE_VERDICT_RLE)[0] == '\0');
    CHECK(nuvaskoe_reason_advice(NUVASKOE_VERDICT_UNKNOWN)[0] == '\0');
}

int main(void)
{
    CHECK(nuvaskoe_version() == NUVASKOE_VERSION);
    check_words();
    return checked("words.c");
}
