/* Cards in the reader, from C: an SLE4442 is put in and powered, the slot's parameters are asked for and set, the type
 * is selected, the card gets two wrong codes and the right one, and four of its bytes are protected. Then an I2C card of
 * 1024 kbit is written over the middle of its memory, where P1P2 comes to its end, and read on both sides. With its type it
 * gets the reader page of 32 bytes, until the host chooses 8, which power on and another selection keep. A status screen shows
 * the counts after each message. examples/c/build builds and runs it. */
#include "card_reader.h"

#include <stdio.h>

/* The memories of two cards. */
static uint8_t sle4442[264];
static uint8_t large[131072];

/* All that the reader knows: the slot and the memory of the card that is in, which with no card is not looked at. The record
 * needs no start but card_reader_remove. */
static uint8_t record[CARD_READER_RECORD];
static uint8_t *image = sle4442;
static size_t image_length = sizeof sle4442;

static void show(const char *what, const uint8_t *bytes, int32_t length)
{
    int32_t i;
    printf("%-12s", what);
    if (length < 0)
        printf(" turned down, %d", (int)-length);
    for (i = 0; i < length; i++)
        printf(" %02x", bytes[i]);
    printf("\n");
}

/* The record, up to the byte that says whether the reader page, its byte 3, was chosen. */
static void show_record(void)
{
    show("record", record, 17);
}

/* The status screen: it is handed the record and nothing else. */
static void screen(const uint8_t *slot)
{
    printf("%-12s tries %u, protected %u\n", "  screen", card_reader_tries(slot), card_reader_protected(slot));
}

static void insert(const char *what, uint8_t kind, uint8_t *memory, size_t length)
{
    int32_t n = card_reader_insert(record, sizeof record, kind, memory, length);
    if (n == 0) {
        image = memory;
        image_length = length;
    }
    printf("%-12s %d\n", what, (int)n);
    screen(record);
}

static void take_out(void)
{
    printf("remove       %d\n", (int)card_reader_remove(record, sizeof record));
    screen(record);
}

static void send(const char *what, const uint8_t *message, size_t length)
{
    uint8_t answer[CARD_READER_ROOM];
    int32_t n = card_reader_message(record, sizeof record, image, image_length, message, length, answer, sizeof answer);
    show(what, answer, n);
    screen(record);
}

int main(void)
{
    /* type, dwLength, bSlot, bSeq, three more bytes; then the data: the pseudo-APDU, or a parameter set, whose protocol
     * number is the first of the three */
    static const uint8_t power_on[] = {0x62, 0, 0, 0, 0, 0, 1, 0, 0, 0};
    static const uint8_t get[] = {0x6C, 0, 0, 0, 0, 0, 2, 0, 0, 0};
    static const uint8_t set[] = {0x61, 7, 0, 0, 0, 0, 3, 1, 0, 0, 0x11, 0x10, 0x00, 0x4D, 0x00, 0x20, 0x00};
    static const uint8_t select[] = {0x6F, 6, 0, 0, 0, 0, 4, 0, 0, 0, 0xFF, 0xA4, 0, 0, 1, 0x06};
    static const uint8_t wrong[] = {0x6F, 8, 0, 0, 0, 0, 5, 0, 0, 0, 0xFF, 0x20, 0, 0, 3, 0x01, 0x02, 0x03};
    static const uint8_t right[] = {0x6F, 8, 0, 0, 0, 0, 6, 0, 0, 0, 0xFF, 0x20, 0, 0, 3, 0x11, 0x22, 0x33};
    static const uint8_t protect[] = {0x6F, 9, 0, 0, 0, 0, 7, 0, 0, 0, 0xFF, 0xD1, 0, 0, 4, 0xA2, 0x13, 0x10, 0x91};
    static const uint8_t start[] = {0xA2, 0x13, 0x10, 0x91};
    /* D0 and B0 at FFFEh run on over 10000h; B1 and D1 begin there. */
    static const uint8_t select_i2c[] = {0x6F, 6, 0, 0, 0, 0, 8, 0, 0, 0, 0xFF, 0xA4, 0, 0, 1, 0x02};
    static const uint8_t write[] = {0x6F, 9, 0, 0, 0, 0, 9, 0, 0, 0, 0xFF, 0xD0, 0xFF, 0xFE, 4, 0x01, 0x02, 0x03, 0x04};
    static const uint8_t read_both[] = {0x6F, 5, 0, 0, 0, 0, 10, 0, 0, 0, 0xFF, 0xB0, 0xFF, 0xFE, 4};
    static const uint8_t read_upper[] = {0x6F, 5, 0, 0, 0, 0, 11, 0, 0, 0, 0xFF, 0xB1, 0x00, 0x00, 4};
    static const uint8_t read_end[] = {0x6F, 5, 0, 0, 0, 0, 12, 0, 0, 0, 0xFF, 0xB1, 0xFF, 0xFF, 2};
    static const uint8_t page_8[] = {0x6F, 6, 0, 0, 0, 0, 13, 0, 0, 0, 0xFF, 0x01, 0, 0, 1, 0x03};
    size_t i;

    for (i = 0; i < sizeof sle4442; i++)
        sle4442[i] = i < sizeof start ? start[i] : 0xFF;
    sle4442[260] = 0x07;
    sle4442[261] = 0x11;
    sle4442[262] = 0x22;
    sle4442[263] = 0x33;

    take_out();
    send("no card", power_on, sizeof power_on);
    insert("insert", CARD_READER_SLE4442, sle4442, sizeof sle4442);
    insert("insert again", CARD_READER_SLE4442, sle4442, sizeof sle4442);
    send("power on", power_on, sizeof power_on);
    send("parameters", get, sizeof get);
    send("set T=1", set, sizeof set);
    send("select", select, sizeof select);
    send("wrong code", wrong, sizeof wrong);
    send("wrong again", wrong, sizeof wrong);
    send("right code", right, sizeof right);
    send("protect", protect, sizeof protect);
    send("and again", protect, sizeof protect);
    send("cut message", right, 9);
    show_record();
    take_out();

    insert("insert I2C", CARD_READER_I2C_1024K, large, sizeof large);
    send("power on", power_on, sizeof power_on);
    show_record();
    send("select", select_i2c, sizeof select_i2c);
    show_record();
    send("write 0FFFEh", write, sizeof write);
    send("read 0FFFEh", read_both, sizeof read_both);
    send("read 10000h", read_upper, sizeof read_upper);
    send("read 1FFFFh", read_end, sizeof read_end);
    send("page 8", page_8, sizeof page_8);
    send("power on", power_on, sizeof power_on);
    send("select", select_i2c, sizeof select_i2c);
    show_record();
    take_out();
    return 0;
}
