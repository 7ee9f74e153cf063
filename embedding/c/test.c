/* Worked examples, refusals in their order, places that keep their surplus, and octets at random. */
#include "../rilvatok.h"

#include <stdio.h>
#include <string.h>

_Static_assert(sizeof(size_t) == 8, "the library is for 64 bits");
_Static_assert(sizeof(struct rilvatok_close) == 40, "the layout of struct rilvatok_close");
_Static_assert(sizeof(struct rilvatok_head) == 32, "the layout of struct rilvatok_head");
_Static_assert(sizeof(struct rilvatok_fault) == 16, "the layout of struct rilvatok_fault");

static int checks, failures;

#define CHECK(test)                                                        \
    do {                                                                   \
        checks++;                                                          \
        if (!(test)) {                                                     \
            failures++;                                                    \
            printf("%s:%d: not so: %s\n", __FILE__, __LINE__, #test);      \
        }                                                                  \
    } while (0)

#define SAME(got, wanted) CHECK(memcmp((got), (wanted), sizeof(wanted) - 1) == 0)

/* A place of octets, all 0xAA, of which some are lent. */
#define SPACE 128
static uint8_t space[SPACE];

static uint8_t *fresh(void)
{
    memset(space, 0xAA, SPACE);
    return space;
}

/* Whether the place still holds what it held, from an octet on. */
static int kept_from(size_t from)
{
    for (size_t i = from; i < SPACE; i++)
        if (space[i] != 0xAA)
            return 0;
    return 1;
}

static struct rilvatok_close close_at(uint8_t kind, size_t n, size_t node, size_t step, size_t item, uint8_t bit, uint8_t decided)
{
    struct rilvatok_close request = {n, node, step, item, kind, bit, decided};
    return request;
}

/* A closing by a strip and what was heard, both as texts of octets, into a place of so many octets. */
#define CLOSE(request, strip, heard, room) \
    rilvatok_close_item(&(request), (const uint8_t *)(strip), sizeof(strip) - 1, (const uint8_t *)(heard), sizeof(heard) - 1, fresh(), (room))

static void closings(void)
{
    struct rilvatok_close r = close_at('B', 4, 0, 1, 0, 0, 0);
    /* 1000, 1000, 37000 and 500 give 1000 */
    CHECK(CLOSE(r, "\0\0", "\1\x03\xE8\1\x03\xE8\1\x90\x88\1\x01\xF4", 3) == 0);
    SAME(space, "\1\x03\xE8");
    CHECK(kept_from(3));
    /* 1000, 1000, 500 and nothing give none */
    CHECK(CLOSE(r, "\0\0", "\1\x03\xE8\1\x03\xE8\1\x01\xF4\0\0\0", SPACE) == 0);
    SAME(space, "\0\0\0");
    CHECK(kept_from(3));
    /* three, two or one equal reading, the rest none, give grade 2, 1 or 0 */
    r.step = 2;
    CHECK(CLOSE(r, "\0\0", "\1\x03\xE8\1\x03\xE8\1\x03\xE8\0\0\0", 5) == 0);
    SAME(space, "\1\x03\xE8\2\0");
    CHECK(CLOSE(r, "\0\0", "\1\x03\xE8\1\x03\xE8\0\0\0\0\0\0", 5) == 0);
    SAME(space, "\1\x03\xE8\1\1");
    CHECK(CLOSE(r, "\0\0", "\1\x03\xE8\0\0\0\0\0\0\0\0\0", 5) == 0);
    SAME(space, "\0\0\0\0\1");
    CHECK(kept_from(5));
    /* three zeros decide at 3k */
    r = close_at('B', 4, 0, 3, 0, 1, 0);
    CHECK(CLOSE(r, "\0\0", "\2\2\2\3", 2) == 0);
    SAME(space, "\0\1");
    CHECK(kept_from(2));
    /* bits 0, 0, 1, 1: at 3k bit 0, at 3k + 1 bit 1, undecided; at 3k + 2 the toss */
    CHECK(CLOSE(r, "\0\0", "\2\2\3\3", 2) == 0);
    SAME(space, "\0\0");
    r.step = 4;
    CHECK(CLOSE(r, "\0\0", "\2\2\3\3", 2) == 0);
    SAME(space, "\1\0");
    r.step = 5;
    CHECK(CLOSE(r, "\0\1", "\2\2\3\3", 2) == 0);
    SAME(space, "\1\0");
    CHECK(CLOSE(r, "\0\0", "\2\2\3\3", 2) == 0);
    SAME(space, "\0\0");
    /* the entry of round 2 of two, bit 9 of it: the high octet comes first */
    r = close_at('B', 4, 0, 8, 9, 0, 0);
    CHECK(CLOSE(r, "\0\0\2\0", "\2\2\3\3", 2) == 0);
    SAME(space, "\1\0");
    CHECK(CLOSE(r, "\2\0\0\2", "\2\2\3\3", 2) == 0);
    SAME(space, "\0\0");
    /* a decided item keeps its bit, and marks that are none count for nothing */
    r = close_at('B', 4, 3, 302, 15, 1, 1);
    CHECK(CLOSE(r, "\0\0", "\2\2\2\2\xFF", 2) == 0);
    SAME(space, "\1\1");
    /* a lamp with the longest period */
    r = close_at('L', 1, 0, 1, 0, 0, 0);
    CHECK(CLOSE(r, "\0\0", "\1\2\x02\x58", 4) == 0);
    SAME(space, "\1\2\x02\x58");
    CHECK(CLOSE(r, "\0\0", "\1\2\x02\x59", 4) == RILVATOK_STRANGE_READING);
    CHECK(kept_from(0));
    /* seventeen cells for sixteen nodes: the last is checked and not looked at */
    r = close_at('B', 16, 15, 1, 0, 0, 0);
    uint8_t heard[17 * 3];
    for (size_t i = 0; i < 17; i++)
        memcpy(heard + 3 * i, "\1\0\7", 3);
    heard[16 * 3 + 2] = 8;
    CHECK(rilvatok_close_item(&r, (const uint8_t *)"\0\0", 2, heard, sizeof heard, fresh(), SPACE) == 0);
    SAME(space, "\1\0\7");
    heard[16 * 3] = 2;
    CHECK(rilvatok_close_item(&r, (const uint8_t *)"\0\0", 2, heard, sizeof heard, fresh(), SPACE) == RILVATOK_STRANGE_READING);
}

/* Everything is wrong at once; then the first thing is mended, and so on. */
static void closing_checks(void)
{
    struct rilvatok_close r = close_at('b', 17, 16, 1, 16, 2, 2);
    static uint8_t strip[2 * 1025];
    CHECK(CLOSE(r, "\0", "\2\0", 0) == RILVATOK_STRANGE_LETTER);
    r.kind = 'B';
    CHECK(CLOSE(r, "\0", "\2\0", 0) == RILVATOK_TORN);
    CHECK(CLOSE(r, "", "\2\0", 0) == RILVATOK_TORN);
    CHECK(CLOSE(r, "", "\2\0\0", 0) == RILVATOK_STRANGE_READING);
    r.decided = 1;
    CHECK(CLOSE(r, "", "\2\0\0", 0) == RILVATOK_STRANGE_READING);
    CHECK(CLOSE(r, "", "\0\0\1", 0) == RILVATOK_STRANGE_READING);
    CHECK(CLOSE(r, "", "\1\0\0", 0) == RILVATOK_SHORT);
    CHECK(rilvatok_close_item(&r, strip, sizeof strip, (const uint8_t *)"", 0, fresh(), 0) == RILVATOK_SHORT);
    CHECK(rilvatok_close_item(&r, strip, sizeof strip - 2, (const uint8_t *)"", 0, fresh(), 0) == RILVATOK_BAD_SIZE);
    CHECK(CLOSE(r, "\0\0", "\1\0\0", 0) == RILVATOK_BAD_SIZE);
    r.n = 0;
    CHECK(CLOSE(r, "\0\0", "\1\0\0", 0) == RILVATOK_BAD_SIZE);
    r.n = 2;
    CHECK(CLOSE(r, "\0\0", "\1\0\0", 0) == RILVATOK_SHORT);
    CHECK(CLOSE(r, "\0\0", "\1\0\0\0\0\0", 0) == RILVATOK_NO_NODE);
    r.node = 1;
    CHECK(CLOSE(r, "\0\0", "\1\0\0\0\0\0", 0) == RILVATOK_NO_ITEM);
    r.item = 15;
    CHECK(CLOSE(r, "\0\0", "\1\0\0\0\0\0", 0) == RILVATOK_WRONG_PHASE);
    r.bit = 1;
    CHECK(CLOSE(r, "\0\0", "\1\0\0\0\0\0", 0) == RILVATOK_SHORT);
    CHECK(CLOSE(r, "\0\0", "\1\0\0\0\0\0", 2) == RILVATOK_SHORT);
    CHECK(CLOSE(r, "\0\0", "\1\0\0\0\0\0", 3) == 0);
    r.step = 2;
    CHECK(CLOSE(r, "\0\0", "\1\0\0\0\0\0", 4) == RILVATOK_SHORT);
    r.step = 3;
    CHECK(CLOSE(r, "\0\0", "\1\0", 1) == RILVATOK_SHORT);
    r.step = 0;
    CHECK(CLOSE(r, "\0\0", "", 2) == RILVATOK_OVER);
    r.step = 303;
    CHECK(CLOSE(r, "\0\0", "", 2) == RILVATOK_OVER);
    r.step = (size_t)1 << 32;
    CHECK(CLOSE(r, "\0\0", "", 2) == RILVATOK_OVER);
    CHECK(kept_from(0));
}

static int same_fault(const struct rilvatok_fault *fault, uint8_t number, uint8_t layer, size_t place)
{
    return fault->number == number && fault->layer == layer && fault->place == place;
}

/* Reads a text of octets, and says whether it is refused by this fault and nothing else is altered. */
#define REFUSES(kind, n, m, text, room, number, layer, place) \
    refuses((kind), (n), (m), (const uint8_t *)(text), sizeof(text) - 1, (room), (number), (layer), (place))

static int refuses(uint8_t kind, size_t n, size_t m, const uint8_t *octets, size_t length, size_t room, uint8_t number, uint8_t layer,
                   size_t place)
{
    struct rilvatok_head head = {1, 2, 3, 4};
    struct rilvatok_fault fault = {0, 0, 0};
    uint8_t answer = rilvatok_read_message(kind, n, m, octets, length, &head, fresh(), room, &fault);
    return answer == number && same_fault(&fault, number, layer, place) && kept_from(0) && head.step == 1 && head.node == 2
           && head.items == 3 && head.letter == 4;
}

static void messages(void)
{
    struct rilvatok_head head = {0, 0, 0, 0};
    struct rilvatok_fault fault = {7, 7, 7};
    uint8_t written[RILVATOK_MESSAGE_OCTETS];
    size_t length = 0;
    /* node 3 polls: 10 degrees of item 0, none of item 1 */
    static const uint8_t poll[] = "P\0\1\3\2\1\x03\xE8\0\0\0";
    CHECK(rilvatok_read_message('B', 4, 2, poll, sizeof poll - 1, &head, fresh(), 6, &fault) == 0);
    CHECK(head.letter == RILVATOK_POLL && head.step == 1 && head.node == 3 && head.items == 2);
    SAME(space, "\1\x03\xE8\0\0\0");
    CHECK(kept_from(6) && same_fault(&fault, 7, 7, 7));
    memset(written, 0, sizeof written);
    CHECK(rilvatok_write_message('B', 4, &head, space, 6, written, sizeof written, &length, &fault) == 0);
    CHECK(length == sizeof poll - 1 && memcmp(written, poll, length) == 0 && same_fault(&fault, 7, 7, 7));
    /* node 0 in step 302: bit 1 of items 1 and 8, bit 0 of the other seven */
    static const uint8_t bits[] = "B\1\x2E\0\x09\2\1";
    CHECK(rilvatok_read_message('L', 4, 9, bits, sizeof bits - 1, &head, fresh(), 9, &fault) == 0);
    CHECK(head.letter == RILVATOK_BITS && head.step == 302 && head.node == 0 && head.items == 9);
    SAME(space, "\0\1\0\0\0\0\0\0\1");
    CHECK(kept_from(9));
    CHECK(rilvatok_write_message('L', 4, &head, space, 9, written, 7, &length, &fault) == 0);
    CHECK(length == 7 && memcmp(written, bits, 7) == 0);

    /* the faults of the reader, in the order of its checks */
    CHECK(REFUSES('C', 0, 0, "", 0, 11, 2, 0));
    CHECK(REFUSES('B', 0, 2, "", 0, 1, 2, 0));
    CHECK(REFUSES('B', 4, 17, "", 0, 1, 2, 0));
    CHECK(REFUSES('B', 4, 2, "Q\0\0\4", 0, 10, 2, 4));
    CHECK(REFUSES('B', 4, 2, "Q\0\0\4\0", 0, 11, 2, 0));
    CHECK(REFUSES('B', 4, 1, "F\0\2\4\1\0\0", 0, 10, 2, 7));
    CHECK(REFUSES('B', 4, 2, "F\0\2\4\1\2", 0, 10, 2, 6));
    CHECK(REFUSES('B', 4, 1, "F\0\2\4\1\2", 0, 3, 2, 3));
    CHECK(REFUSES('B', 4, 1, "F\0\2\3\1\2", 0, 13, 2, 1));
    CHECK(REFUSES('B', 4, 1, "F\0\3\3\1\2", 0, 12, 2, 5));
    CHECK(REFUSES('B', 4, 9, "B\1\x2E\0\x09\2\3", 0, 12, 2, 6));
    CHECK(REFUSES('B', 4, 2, "P\0\1\3\2\1\x03\xE8\2\0\0", 0, 12, 2, 8));
    CHECK(REFUSES('B', 4, 1, "P\0\1\3\1\0\0\7", 0, 12, 2, 5));
    CHECK(REFUSES('L', 4, 1, "E\0\2\0\1\1\4\0\0", 0, 12, 1, 5));
    CHECK(REFUSES('B', 4, 2, "P\0\1\3\2\1\x03\xE8\0\0\0", 5, 2, 2, 0));
    CHECK(REFUSES('B', 4, 9, "B\1\x2E\0\x09\2\1", 8, 2, 2, 0));
}

/* Writes a message, and says whether it is refused by this fault and nothing else is altered. */
#define WONT(kind, n, head, text, room, number, layer, place) \
    wont((kind), (n), (head), (const uint8_t *)(text), sizeof(text) - 1, (room), (number), (layer), (place))

static int wont(uint8_t kind, size_t n, struct rilvatok_head head, const uint8_t *items, size_t length, size_t room, uint8_t number,
                uint8_t layer, size_t place)
{
    struct rilvatok_fault fault = {0, 0, 0};
    size_t told = 99;
    uint8_t answer = rilvatok_write_message(kind, n, &head, items, length, fresh(), room, &told, &fault);
    return answer == number && same_fault(&fault, number, layer, place) && kept_from(0) && told == 99;
}

static void writing_checks(void)
{
    struct rilvatok_head h = {303, 4, 17, 'Q'};
    CHECK(WONT('C', 0, h, "\2", 0, 11, 2, 0));
    CHECK(WONT('B', 0, h, "\2", 0, 11, 2, 0));
    h.letter = 'F';
    CHECK(WONT('B', 4, h, "\2", 0, 1, 2, 0));
    h.items = 2;
    CHECK(WONT('B', 0, h, "\2", 0, 1, 2, 0));
    CHECK(WONT('B', 4, h, "\2", 0, 10, 2, 1));
    CHECK(WONT('B', 4, h, "\1\2", 0, 12, 2, 6));
    CHECK(WONT('B', 4, h, "\1\0", 0, 3, 2, 3));
    h.node = 3;
    CHECK(WONT('B', 4, h, "\1\0", 0, 13, 2, 1));
    h.step = 302;
    CHECK(WONT('B', 4, h, "\1\0", 5, 2, 2, 0));
    h.letter = 'P';
    h.step = 1;
    CHECK(WONT('B', 4, h, "\1\0\0\1\0", 0, 10, 2, 5));
    CHECK(WONT('B', 4, h, "\1\0\0\0\0\1", 0, 12, 2, 8));
    CHECK(WONT('L', 4, h, "\1\1\0\0\1\0\0\1", 0, 12, 1, 9));
    CHECK(WONT('B', 4, h, "\1\0\0\0\0\0", 10, 2, 2, 0));
    h.step = 2;
    CHECK(WONT('B', 4, h, "\1\0\0\0\0\0", 11, 13, 2, 1));
    h.step = (size_t)1 << 40;
    CHECK(WONT('B', 4, h, "\1\0\0\0\0\0", 11, 13, 2, 1));
}

static void words(void)
{
    CHECK(rilvatok_refusal_word(RILVATOK_STRANGE_READING, fresh(), RILVATOK_WORD_OCTETS) == 15);
    SAME(space, "strange reading");
    CHECK(kept_from(15));
    CHECK(rilvatok_refusal_word(RILVATOK_SHORT, fresh(), 5) == 5);
    SAME(space, "short");
    CHECK(rilvatok_refusal_word(RILVATOK_SHORT, fresh(), 4) == 0);
    CHECK(rilvatok_refusal_word(0, space, SPACE) == 0);
    CHECK(rilvatok_refusal_word(14, space, SPACE) == 0);
    CHECK(kept_from(0));
}

/* Numbers at random, the same in each run. */
static uint64_t seed = 1;

static uint64_t next(void)
{
    seed ^= seed << 13;
    seed ^= seed >> 7;
    seed ^= seed << 17;
    return seed;
}

/* A number that is mostly small. */
static size_t some(void)
{
    switch (next() % 8) {
    case 0:
        return (size_t)next();
    case 1:
        return next() % 400;
    default:
        return next() % 18;
    }
}

/* An octet that is mostly small, or one of some letters. */
static uint8_t octet(const char *letters)
{
    if (*letters != 0 && next() % 8 != 0)
        return (uint8_t)letters[next() % strlen(letters)];
    return (uint8_t)(next() % 4 == 0 ? next() : next() % 4);
}

/* No octets crash it, and where it refuses or has room to spare nothing else is altered. */
static void at_random(void)
{
    uint8_t octets[80], strip[80];
    for (int turn = 0; turn < 2000000; turn++) {
        size_t length = next() % sizeof octets, room = next() % 80;
        for (size_t i = 0; i < length; i++)
            octets[i] = octet("");
        memset(space, 0xAA, SPACE);
        struct rilvatok_head head = {some(), some(), some(), octet("PEBF")};
        struct rilvatok_fault fault = {0, 0, 0};
        uint8_t answer;
        size_t told = 0;
        switch (next() % 3) {
        case 0: {
            struct rilvatok_close r = close_at(octet("BL"), some(), some(), some(), some(), octet(""), octet(""));
            size_t strip_length = next() % sizeof strip;
            for (size_t i = 0; i < strip_length; i++)
                strip[i] = (uint8_t)next();
            answer = rilvatok_close_item(&r, strip, strip_length, octets, length, space, room);
            if (answer != 0 ? !kept_from(0) : !kept_from(RILVATOK_CLOSED_OCTETS))
                failures++;
            break;
        }
        case 1:
            octets[0] = octet("PEBF");
            octets[4] = (uint8_t)(1 + next() % 16);
            answer = rilvatok_read_message(octet("BL"), some(), octets[4], octets, length, &head, space, room, &fault);
            if (answer != fault.number || (answer != 0 ? !kept_from(0) : !kept_from(room < RILVATOK_ITEMS_OCTETS ? room : RILVATOK_ITEMS_OCTETS)))
                failures++;
            break;
        default:
            answer = rilvatok_write_message(octet("BL"), some(), &head, octets, length, space, room, &told, &fault);
            if (answer != fault.number || !kept_from(answer != 0 ? 0 : told))
                failures++;
        }
        if (answer > 13)
            failures++;
    }
    checks++;
}

int main(void)
{
    closings();
    closing_checks();
    messages();
    writing_checks();
    words();
    at_random();
    printf("C: %d checks, %d failed\n", checks, failures);
    return failures != 0;
}
