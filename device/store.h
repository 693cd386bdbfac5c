/* The card that is in, and its file. */
#ifndef STORE_H
#define STORE_H

#include "card.h"

/* `kept` is the image as the file has it. The file is locked while the card is in: a card is in one reader at a time. */
struct store {
    struct card card;
    uint8_t kept[CARD_MOST];
    char path[4096];
    int file;
};

/* Takes the card of a file and locks the file: 0, or -1 and what is amiss in `why`. The store is as it was then. */
int store_open(struct store *store, const char *path, char *why, size_t room);

/* Whether a byte of the card is other than in the file. */
int store_changed(const struct store *store);

/* Writes the card to a new file, has it on the disk, and puts it in the place of the old one: a power cut at any moment
 * leaves the one or the other, whole. 0, or -1 and what is amiss in `why`. */
int store_save(struct store *store, char *why, size_t room);

/* Gives the file back. */
void store_close(struct store *store);

/* Writes a new card to a file that is not there yet: 0, or -1 and what is amiss in `why`. */
int store_new(const struct kind *kind, const char *path, char *why, size_t room);

#endif
