/*
 * Rilvatok for controllers: one item's closing, and messages read and written.
 *
 * The functions are in libcontroller.a, which `rt lib` writes in crates/controller. Link it, and the C library for memset and memmove.
 *
 * For every function:
 * - It answers a number: 0 where it was carried out, else the refusal's, one of enum rilvatok_refusal. rilvatok_refusal_word answers a length.
 * - Its checks are made in the order in which they are listed. The first that hits is the answer.
 * - A refusal alters nothing that is lent, except the struct rilvatok_fault that says why.
 * - What is written to a place of octets stands at its front. The surplus stays as it is.
 * - It allocates nothing, keeps nothing, and may be called from several threads at once.
 *
 * What the caller owes:
 * - No pointer is null, also where the length behind it is 0.
 * - A pointer to octets has as many of them behind it as its length says, and all of them hold a value: clear an array before it is lent.
 * - What a function writes to overlaps nothing else that is lent to the same call.
 *
 * docs/EMBEDDING.md has examples, docs/FORMATS.md the octets, docs/REFUSALS.md the refusals, docs/PROTOCOL.md the closings.
 */
#ifndef RILVATOK_H
#define RILVATOK_H

#include <stddef.h>
#include <stdint.h>

#ifdef __cplusplus
extern "C" {
#endif

/* The kinds of reading: bearings take 2 octets, lamps 3. */
enum rilvatok_kind {
    RILVATOK_BEARINGS = 'B',
    RILVATOK_LAMPS = 'L'
};

/* The letters of messages: P and E have a cell of each item, B and F a bit. */
enum rilvatok_letter {
    RILVATOK_POLL = 'P',
    RILVATOK_ECHO = 'E',
    RILVATOK_BITS = 'B',
    RILVATOK_FINAL = 'F'
};

/* What was heard of a bit. Any other octet counts as nothing. */
enum rilvatok_mark {
    RILVATOK_NOTHING = 0,
    RILVATOK_BIT_0 = 2,
    RILVATOK_BIT_1 = 3
};

/* The refusals. docs/REFUSALS.md says when each is given. */
enum rilvatok_refusal {
    RILVATOK_BAD_SIZE = 1,
    RILVATOK_SHORT = 2,
    RILVATOK_NO_NODE = 3,
    RILVATOK_NO_ITEM = 4,
    RILVATOK_HONEST_SENDER = 5,
    RILVATOK_FAULTY_NODE = 6,
    RILVATOK_WRONG_PHASE = 7,
    RILVATOK_REPEATED = 8,
    RILVATOK_OVER = 9,
    RILVATOK_TORN = 10,
    RILVATOK_STRANGE_LETTER = 11,
    RILVATOK_STRANGE_READING = 12,
    RILVATOK_OUT_OF_TURN = 13
};

/* Sizes that suffice in every kind: what a closing writes, the items of a message, a message, a word. */
enum rilvatok_size {
    RILVATOK_CLOSED_OCTETS = 6,
    RILVATOK_ITEMS_OCTETS = 64,
    RILVATOK_MESSAGE_OCTETS = 69,
    RILVATOK_WORD_OCTETS = 15
};

/* The closing of one item at one node, as a caller asks for it. */
struct rilvatok_close {
    size_t n;        /* how many nodes there are, 1 to 16 */
    size_t node;     /* the node that closes, below n */
    size_t step;     /* the step that closes, 1 to 302 */
    size_t item;     /* the item, 0 to 15 */
    uint8_t kind;    /* enum rilvatok_kind */
    uint8_t bit;     /* the node's bit of the item, 0 or 1 */
    uint8_t decided; /* 1 where the item is decided at the node, else 0 */
};

/* What a message says besides its items. */
struct rilvatok_head {
    size_t step;    /* 1 for P, 2 for E, 3 to 302 for B and F */
    size_t node;    /* the node that sends */
    size_t items;   /* how many items it has */
    uint8_t letter; /* enum rilvatok_letter */
};

/* Why a message was refused. */
struct rilvatok_fault {
    size_t place;   /* which octet, counted from 0 */
    uint8_t number; /* enum rilvatok_refusal */
    uint8_t layer;  /* 1: octets strange to the kind; 2: everything else */
};

/*
 * Closes one item at one node.
 *
 * strip: the coin's entries, two octets for each, the high one first.
 * heard: what was heard from each node, from node 0 on. In steps 1 and 2 a cell each, as in the body of a message: an octet 1 and the reading,
 *        or an octet 0 and as many zeros. In every other step a mark each, one octet. What is beyond n is checked for its form and not looked at.
 * place: what the closing gives is written here.
 *        step 1: the cell; step 2: the cell, the grade 0 to 2, the bit; later: the bit, and 1 where the item is decided, else 0.
 *
 * Checks: 11 the kind; 10 an odd number of octets in the strip, or heard cells that are not whole; 12 decided above 1, or a strange cell;
 *         2 the strip has no entry or more than 1,024; 1 n; 2 fewer than n heard; 3 the node; 4 the item; 7 the bit; 9 the step;
 *         2 the place is too short.
 */
uint8_t rilvatok_close_item(const struct rilvatok_close *request, const uint8_t *strip, size_t strip_length, const uint8_t *heard,
                            size_t heard_length, uint8_t *place, size_t place_length);

/*
 * Reads octets as a message for n nodes and m items.
 *
 * head:  told what the message says besides its items.
 * items: P and E: its cells, as they stand in its body. B and F: an octet 0 or 1 for each item.
 * fault: told why the octets are refused; else left alone.
 *
 * Checks: 11 the kind; 1 n or m; 10 fewer than five octets; 11 the letter; 10 another m, or a wrong length; 3 the node; 13 the step;
 *         12 the body; 2 the place for the items is too short.
 */
uint8_t rilvatok_read_message(uint8_t kind, size_t n, size_t m, const uint8_t *octets, size_t octets_length, struct rilvatok_head *head,
                              uint8_t *items, size_t items_length, struct rilvatok_fault *fault);

/*
 * Writes a message for n nodes.
 *
 * head:  what it says besides its items; head->items is m.
 * items: P and E: m cells, as in the body of a message. B and F: an octet 0 or 1 for each of m items.
 * place: the message is written here.
 * length: told how many octets the message has.
 * fault: told why it is refused; else left alone.
 *
 * Checks: 11 the kind; 11 the letter; 1 n or m; 10 not just the octets of m items; 12 a strange cell, or an octet above 1 for a bit;
 *         3 the node; 13 the step; 2 the place is too short.
 */
uint8_t rilvatok_write_message(uint8_t kind, size_t n, const struct rilvatok_head *head, const uint8_t *items, size_t items_length,
                               uint8_t *place, size_t place_length, size_t *length, struct rilvatok_fault *fault);

/*
 * Writes the word of a refusal, in ASCII and without a closing zero, and answers its length.
 * It answers 0, and writes nothing, where there is no such number or no room for the word.
 */
size_t rilvatok_refusal_word(uint8_t number, uint8_t *place, size_t place_length);

#ifdef __cplusplus
}
#endif

#endif
