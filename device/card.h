/* A card as text that a person reads and edits: docs/HOST.md has the form. */
#ifndef CARD_H
#define CARD_H

#include <stddef.h>
#include <stdint.h>

enum { CARD_MOST = 131072, HEAD_MOST = 4096, TEXT_MOST = 1 << 20, WHY_MOST = 200 };

/* A kind of card, and where the parts of its image are. The protection bytes follow the memory. */
struct kind {
    const char *name, *told;
    uint8_t number;
    size_t image, memory;
    size_t dumped;              /* memory bytes in the dump: those before counter and code, where these stand in the memory */
    size_t protectable;         /* memory bytes with a protection bit, from 0 on */
    uint8_t full;               /* the full counter, 0 of a card without a code */
    size_t counter, code, code_bytes;
    uint8_t reset[4];           /* what a new card answers to reset, its first bytes; of an I2C card none */
};

struct card {
    const struct kind *kind;
    uint8_t image[CARD_MOST];
    char head[HEAD_MOST];       /* the comment lines above the card, which are kept */
    size_t head_length;
};

/* The kind of that name, or none. */
const struct kind *kind_named(const char *name);

/* All names, apart by blanks, as they are told where one is wrong. */
const char *kind_names(void);

/* A new card: every byte FFh but those that it answers to reset, nothing protected, all tries left, a code of FFh. */
void card_blank(struct card *card, const struct kind *kind);

/* The card that a text has, which is cut up meanwhile: 0, or the line of the first fault, and what it is in `why`. */
size_t card_read(struct card *card, char *text, size_t length, char why[WHY_MOST]);

/* The text of a card, at most TEXT_MOST bytes: its length. */
size_t card_write(const struct card *card, char *text);

/* The protected bytes of a card from a place on as ranges, `0000..0003,0010`, or from 0 on `none`: as many ranges as fit into a
 * text of so many bytes. The place of the first byte that is not told, or the number of bytes with a bit. */
size_t card_protected(const struct card *card, size_t from, char *text, size_t room);

#endif
