/* The card reader for C: one host message, one card put in, one card taken out.
 *
 * Link libcard_reader.a, which `tools/library` writes to target/staticlib/. The library allocates nothing, keeps nothing
 * between calls, has no globals and calls nothing of C's: all it knows stands in the record and the image that the
 * caller lends it.
 * Any bytes may come as record, image and message; every call has its one result, which is proved. No call takes more than
 * 512 bytes of stack, which is measured: docs/GUIDE.md has the figures and what they include.
 *
 * Each slice is a pointer and a length in bytes. What the caller has to see to, as for any C function:
 *   - so many bytes are there, and may be written where the pointer is not to const; of length 0 nothing is touched;
 *   - the slices of one call do not overlap, and nothing else changes them while the call runs.
 *
 * The record, CARD_READER_RECORD bytes:
 *   0        the kind of the card that is in, 0 for none
 *   1        active: 0 or 1
 *   2        selected type, 0 for none
 *   3        reader page: 8, 16, 32, 64 or 128
 *   4        open: 0 or 1; a card without a code is never open
 *   5        protocol number of the slot's parameter set: 0 for T=0, 1 for T=1
 *   6 to 12  the set's bytes, as SetParameters has them from its byte 10 on: T=1 has seven; T=0 has five, and bytes 11
 *            and 12 are 00h
 *   13       tries left; 0 with no card, for I2C and for a card without a code
 *   14, 15   number of protected bytes, 0 to 1024, low byte first; 0 with no card and for I2C
 *   16       chosen: 1 where command 01 has succeeded since the card went in, else 0; 0 with no card
 *   17..     the rest, all 00h
 * The set is one that SetParameters takes; with no card in, it is the default, T=0 with 11 00 00 0A 00. Both counts are
 * the image's: card_reader_tries and card_reader_protected read them from the record alone.
 * The page is 8 when a card goes in. While it is not chosen, each A4 that succeeds sets it by the type: 02h to 32, 01h to 8.
 * Chosen, it stays until 01 sets another or the card goes out; power keeps both bytes.
 * A record starts as what card_reader_remove makes of it, whatever it held before. Zeros with a page of 8 are no empty
 * record: a set of zeros is none that SetParameters takes, and a message on them is turned down, CARD_READER_E_RECORD.
 *
 * A call that is turned down returns one of the CARD_READER_E_ numbers, and record, image and answer keep every byte.
 */
#ifndef CARD_READER_H
#define CARD_READER_H

#include <stddef.h>
#include <stdint.h>

#ifdef __cplusplus
extern "C" {
#endif

/* The record's length. */
#define CARD_READER_RECORD 32
/* The least room for an answer, and the longest answer there is. */
#define CARD_READER_ROOM 271
#define CARD_READER_LONGEST 267

/* The kinds, with their image bytes, at most 131072. */
#define CARD_READER_I2C_1K 1     /* 128 */
#define CARD_READER_I2C_2K 2     /* 256 */
#define CARD_READER_I2C_4K 3     /* 512 */
#define CARD_READER_I2C_8K 4     /* 1024 */
#define CARD_READER_I2C_16K 5    /* 2048 */
#define CARD_READER_I2C_32K 6    /* 4096 */
#define CARD_READER_I2C_64K 7    /* 8192 */
#define CARD_READER_I2C_128K 8   /* 16384 */
#define CARD_READER_I2C_256K 9   /* 32768 */
#define CARD_READER_I2C_512K 10  /* 65536 */
#define CARD_READER_I2C_1024K 11 /* 131072: 17 address bits */
#define CARD_READER_SLE4428 20   /* 1152: 1024 memory bytes (3FDh counter, 3FEh and 3FFh code), 128 protection bytes */
#define CARD_READER_SLE4418 21   /* 1152: 1024 memory bytes, 128 protection bytes; no code */
#define CARD_READER_SLE4442 30   /* 264: 256 memory bytes, 4 protection bytes, counter, 3 code bytes */
#define CARD_READER_SLE4432 31   /* 264: 256 memory bytes, 4 protection bytes, 4 bytes 00h; no code */

/* The answer buffer is shorter than CARD_READER_ROOM. */
#define CARD_READER_E_BUFFER (-1)
/* The message is shorter than 10 bytes. */
#define CARD_READER_E_MESSAGE (-2)
/* The kind is none of the above, or the image is not one of a card of that kind: its length, an SLE4442 counter above
 * 07h, an SLE4428 whose protection bit for 3FDh is 0, or an SLE4432 whose last four bytes are not all 00h. With no card
 * in the slot the image is not looked at. */
#define CARD_READER_E_IMAGE (-3)
/* The record has another length than CARD_READER_RECORD, a byte that may only be 0 or 1 is neither, a byte of the rest
 * is not 00h, or what it says cannot be so (a page of no reader, a type that is not the card's, an open card that has no
 * code, a parameter set that SetParameters would not take, one that is not the default or a chosen page with no card in,
 * and the like), or one of its counts is not the image's, or with no card not 0. */
#define CARD_READER_E_RECORD (-4)
/* A card is in already. */
#define CARD_READER_E_OCCUPIED (-5)

/* One host message (CCID Bulk-OUT) to the card that is in.
 *   record   the slot; afterwards the next slot
 *   image    the card's memory; afterwards what the card holds. It changes only under a 6Fh whose answer ends in 90 xx or
 *            65 81, the latter of a write over a protected byte that is not the one sent: the other bytes are stored
 *   message  the whole message, header and data
 *   answer   afterwards the answer (CCID Bulk-IN) from its first byte on; bytes past the answer keep their values
 * Types: 62h (power on) and 6Fh (transfer), answered by 80h; 63h (power off) and 65h (slot status), by 81h; 61h, 6Ch and
 * 6Dh (set, get and reset parameters), by 82h. Any other is answered by 81h, as failed.
 * Of the I2C kinds CARD_READER_I2C_1024K alone has B1 and D1: they read and write as B0 and D0 do, at 10000h + P1P2. B0 and
 * D0 begin at P1P2 and run on over 0FFFFh/10000h.
 * Returns the answer's length, 10 to CARD_READER_LONGEST, or, tested in this order, -1, -2, -3 or -4. */
int32_t card_reader_message(uint8_t *record, size_t record_length, uint8_t *image, size_t image_length,
                            const uint8_t *message, size_t message_length, uint8_t *answer, size_t answer_length);

/* A card is put in: the record becomes that of the card, inactive, with no type, page 8, not chosen, closed, with the
 * default set and the counts of the image.
 *   record   the slot; afterwards the slot with the card
 *   kind     one of the kinds above
 *   image    the card's memory, which is only looked at
 * Returns 0, or, tested in this order, -4 (the record's length alone), -5 or -3. */
int32_t card_reader_insert(uint8_t *record, size_t record_length, uint8_t kind, const uint8_t *image, size_t image_length);

/* The card is taken out: any record of the right length becomes the empty one.
 *   record   the slot; afterwards the empty slot
 * Returns 0, or -4 where the record has another length. */
int32_t card_reader_remove(uint8_t *record, size_t record_length);

/* The counts for a status screen, from a record alone, without a call of the library.
 * They are the image's after every insertion that returns 0 and every message that is answered, and 0 after every removal.
 * A call that is turned down leaves them as they are. Before the first call on a record its bytes mean nothing.
 *   record   CARD_READER_RECORD bytes, which are only looked at */

/* Tries left, the one bits of the card's counter: 0 to 8 for an SLE4428, 0 to 3 for an SLE4442; 0 with no card, for I2C
 * and for a card without a code. */
static inline unsigned card_reader_tries(const uint8_t *record)
{
    return record[13];
}

/* How many bytes of the card are protected: 0 to 1024 for an SLE4418, to 1023 for an SLE4428, to 32 for an SLE4442 and an
 * SLE4432; 0 with no card and for I2C. */
static inline unsigned card_reader_protected(const uint8_t *record)
{
    return record[14] + 256u * record[15];
}

#ifdef __cplusplus
}
#endif

#endif
