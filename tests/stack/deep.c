/* Stand-ins for the calls for C, to show that the stack test finds a deep frame wherever it is: each is the library's call,
 * and takes a frame of FRAME bytes where MESSAGE, INSERTION or REMOVAL says. These are conditions of C, 0 where they
 * are not given, over the call's arguments and its result, which they may change. */
#include "card_reader.h"

#ifndef MESSAGE
#define MESSAGE 0
#endif
#ifndef INSERTION
#define INSERTION 0
#endif
#ifndef REMOVAL
#define REMOVAL 0
#endif

/* A frame of that many bytes, all written, as a build has that spreads bits into flags. */
__attribute__((noinline)) static void spread(void)
{
    volatile uint8_t flags[FRAME];
    size_t i;
    for (i = 0; i < sizeof flags; i++)
        flags[i] = 1;
}

int32_t deep_message(uint8_t *record, size_t record_length, uint8_t *image, size_t image_length, const uint8_t *message,
                     size_t message_length, uint8_t *answer, size_t answer_length)
{
    int32_t result =
        card_reader_message(record, record_length, image, image_length, message, message_length, answer, answer_length);
    if (MESSAGE)
        spread();
    return result;
}

int32_t deep_insert(uint8_t *record, size_t record_length, uint8_t kind, const uint8_t *image, size_t image_length)
{
    int32_t result = card_reader_insert(record, record_length, kind, image, image_length);
    if (INSERTION)
        spread();
    return result;
}

int32_t deep_remove(uint8_t *record, size_t record_length)
{
    int32_t result = card_reader_remove(record, record_length);
    if (REMOVAL)
        spread();
    return result;
}
