/* The trial program over the calls for C: cases on standard input, a line for each on standard output as soon as it is
 * done, so that whole states can be compared. A case is
 *   1 byte    the call: 0 message, 1 insertion, 2 removal
 *   32 bytes  the record
 *   2 bytes   the answer buffer's length, low first, at most 600
 *   1 byte    what the buffer is filled with
 *   2 bytes   the message's length, low first: at most 600; of an insertion 1, of a removal 0
 *   4 bytes   the image's length, low first, at most 131,072
 *   the message, which of an insertion is the kind; the image, which is not handed to a removal
 * A line is the refusal's number or 0, the answer's length (0 but for a message), the record and the answer buffer
 * afterwards (`-` where it is empty), and ` ADDRESS=VALUE` for each image byte that changed, in four hex digits, or five
 * from 10000h on. A case that is cut or over a limit, of another call or with a message that its call does not have,
 * prints `bad` and ends the program; a clean end prints nothing. */
#include "card_reader.h"

#include <stdio.h>
#include <string.h>

enum { MESSAGE, INSERTION, REMOVAL };
enum { HEAD = 42, MOST = 600, MOST_IMAGE = 131072, BLOCK = 256 };

static uint8_t head[HEAD], message[MOST], answer[MOST], image[MOST_IMAGE], before[MOST_IMAGE];

/* Reads that many bytes: how many came, fewer where the input ends first. */
static size_t take(uint8_t *to, size_t wanted)
{
    return fread(to, 1, wanted, stdin);
}

/* A number of so many bytes, low first. */
static size_t number(const uint8_t *bytes, size_t count)
{
    size_t value = 0;
    while (count-- > 0)
        value = value << 8 | bytes[count];
    return value;
}

/* At most MOST bytes. */
static void hex(const uint8_t *bytes, size_t count)
{
    static char digits[2 * MOST + 1];
    size_t i;
    for (i = 0; i < count; i++) {
        digits[2 * i] = "0123456789abcdef"[bytes[i] >> 4];
        digits[2 * i + 1] = "0123456789abcdef"[bytes[i] & 15];
    }
    digits[2 * count] = '\0';
    printf(" %s", count > 0 ? digits : "-");
}

/* Whether a call has a message of that length; another call has none. */
static int has(uint8_t call, size_t length)
{
    switch (call) {
    case MESSAGE:
        return length <= MOST;
    case INSERTION:
        return length == 1;
    case REMOVAL:
        return length == 0;
    default:
        return 0;
    }
}

/* The image bytes of one block that changed. */
static void changed(size_t from, size_t to)
{
    size_t i;
    for (i = from; i < to; i++)
        if (image[i] != before[i])
            printf(" %04x=%02x", (unsigned)i, image[i]);
}

int main(void)
{
    size_t came;
    while ((came = take(head, HEAD)) > 0) {
        uint8_t *record = head + 1;
        size_t room = number(head + 33, 2), length = number(head + 36, 2), size = number(head + 38, 4), i;
        int32_t result;
        if (came < HEAD || !has(head[0], length) || room > MOST || size > MOST_IMAGE || take(message, length) < length ||
            take(image, size) < size) {
            puts("bad");
            break;
        }
        memcpy(before, image, size);
        memset(answer, head[35], room);
        switch (head[0]) {
        case MESSAGE:
            result = card_reader_message(record, CARD_READER_RECORD, image, size, message, length, answer, room);
            break;
        case INSERTION:
            result = card_reader_insert(record, CARD_READER_RECORD, message[0], image, size);
            break;
        default:
            result = card_reader_remove(record, CARD_READER_RECORD);
        }
        printf("%d %d", result < 0 ? (int)-result : 0, result < 0 ? 0 : (int)result);
        hex(record, CARD_READER_RECORD);
        hex(answer, room);
        for (i = 0; i < size; i += BLOCK) {
            size_t end = size - i < BLOCK ? size : i + BLOCK;
            if (memcmp(image + i, before + i, end - i) != 0)
                changed(i, end);
        }
        putchar('\n');
        if (fflush(stdout) != 0)
            return 1;
    }
    return fflush(stdout) != 0;
}
