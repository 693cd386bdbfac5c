// The reader in plain C, by the same rules and with the same calls as the library. It is the measure
// of what the library costs; nothing proves it.
#ifndef PLAIN_H
#define PLAIN_H

#include <stddef.h>
#include <stdint.h>

// One host message: the answer's length, or the refusal's number as a negative. No two of the four
// areas overlap.
int32_t plain_message(uint8_t *record, size_t record_len, uint8_t *image, size_t image_len,
                      const uint8_t *message, size_t message_len, uint8_t *answer, size_t answer_len);

// A card is put in: 0, or the refusal's number as a negative.
int32_t plain_insert(uint8_t *record, size_t record_len, uint8_t kind, const uint8_t *image, size_t image_len);

// The card is taken out: 0, or -4 where the record is not 32 bytes.
int32_t plain_remove(uint8_t *record, size_t record_len);

#endif
