/* Node 0 of four closes step 1 of one item, and writes the echo that it sends in step 2. */
#include "../rilvatok.h"

#include <stdio.h>

int main(void)
{
    /* 10.00 degrees from nodes 0 and 1, the same with a whole turn more from node 2, nothing from node 3 */
    const uint8_t heard[] = {1, 0x03, 0xE8, 1, 0x03, 0xE8, 1, 0x90, 0x88, 0, 0, 0};
    const uint8_t strip[] = {0, 0};
    const struct rilvatok_close request = {.n = 4, .node = 0, .step = 1, .item = 0, .kind = RILVATOK_BEARINGS};
    uint8_t cell[RILVATOK_CLOSED_OCTETS] = {0};

    uint8_t number = rilvatok_close_item(&request, strip, sizeof strip, heard, sizeof heard, cell, sizeof cell);
    if (number != 0) {
        uint8_t word[RILVATOK_WORD_OCTETS] = {0};
        size_t length = rilvatok_refusal_word(number, word, sizeof word);
        printf("refused by %d: %.*s\n", number, (int)length, (const char *)word);
        return 1;
    }
    printf("it holds %d hundredths of a degree\n", cell[1] * 256 + cell[2]);

    const struct rilvatok_head head = {.step = 2, .node = 0, .items = 1, .letter = RILVATOK_ECHO};
    uint8_t message[RILVATOK_MESSAGE_OCTETS] = {0};
    struct rilvatok_fault fault = {0};
    size_t length = 0;
    number = rilvatok_write_message(RILVATOK_BEARINGS, 4, &head, cell, 3, message, sizeof message, &length, &fault);
    if (number != 0) {
        printf("refused by %d at octet %zu\n", number, fault.place);
        return 1;
    }
    printf("it sends");
    for (size_t i = 0; i < length; i++)
        printf(" %02X", message[i]);
    printf("\n");
    return 0;
}
