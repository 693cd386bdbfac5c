// Measures the library beside the C reader: the same messages to both, in turn, in one process.
//
//   bench agree          whether both give the same in every row, and what its name says: exit status 0, or 1 and a line
//   bench time ROUNDS    the time of a call, and the ratio as the median, least and most of the rounds
//   bench count ROUNDS   calls between marks on standard error, for an emulator that logs instructions there
//   bench steps          the instructions of a call, counted by stepping through them one by one
//
// A row is a state and a message, or a card that is put in. Before a call the record and what the call
// changes of the image are put back, so that every call does the same. The same loop around a function
// that does nothing is taken off.
#define _DEFAULT_SOURCE
#include "card_reader.h"
#include "plain.h"

#include <signal.h>
#include <stdio.h>
#include <string.h>
#include <sys/ptrace.h>
#include <sys/wait.h>
#include <time.h>
#include <unistd.h>

typedef int32_t message_call(uint8_t *, size_t, uint8_t *, size_t, const uint8_t *, size_t, uint8_t *, size_t);
typedef int32_t insert_call(uint8_t *, size_t, uint8_t, const uint8_t *, size_t);

enum { I2C_SMALL = 1, I2C_256 = 2, I2C_32_KIB = 9, I2C_64_KIB = 10, I2C_LARGE = 11 };
enum { SLE4428 = 20, SLE4418 = 21, SLE4442 = 30, SLE4432 = 31 };
enum { ROWS = 200, LARGEST = 131072, BEHIND = 256 };
enum { CALLS = 4, TIMED_CALLS = 500, TIMED_RUNS = 8, MOST_ROUNDS = 999 };

// The card has `bits` in each protection byte, and before each call `poke` in each of the bytes from `poke_at` on. An
// insertion has the kind in the place of the message's type.
struct row {
    const char *name;
    uint8_t kind, bits, poke;
    int inserts;
    uint8_t record[32], message[300];
    size_t record_len, image_len, message_len, answer_len, poke_at, poke_len;
};

static struct row rows[ROWS];
static size_t row_count;
static uint8_t record[32], image[LARGEST + BEHIND], answer[271];

// Parameter sets as the record has them: a protocol number and seven bytes.
static const uint8_t default_set[8] = { 0, 0x11, 0x00, 0x00, 0x0a, 0x00 };
static const uint8_t t0_set[8] = { 0, 0x92, 0x02, 0x01, 0x0b, 0x01 };
static const uint8_t t1_set[8] = { 1, 0x95, 0x11, 0xff, 0x9f, 0x03, 0xfe, 0x00 };
static const uint8_t bad_set[8] = { 1, 0x95, 0x11, 0xff, 0x9f, 0x03, 0xfe, 0x01 };

// ---- the cards

static size_t image_len_of(uint8_t kind) {
    return kind >= SLE4442 ? 264 : kind >= SLE4428 ? 1152 : (size_t)64 << kind;
}

// The type that selects the card.
static uint8_t type_of(uint8_t kind) { return kind >= SLE4442 ? 6 : kind >= SLE4428 ? 5 : kind < 6 ? 1 : 2; }

// Whether the card has a counter and a code.
static int has_code(uint8_t kind) { return kind == SLE4442 || kind == SLE4428; }

static const char *card_of(uint8_t kind) {
    switch (kind) {
    case 0: return "none";
    case I2C_SMALL: return "I2C 128 bytes";
    case I2C_256: return "I2C 256 bytes";
    case I2C_32_KIB: return "I2C 32 KiB";
    case I2C_64_KIB: return "I2C 64 KiB";
    case I2C_LARGE: return "I2C 128 KiB";
    case SLE4428: return "SLE4428";
    case SLE4418: return "SLE4418";
    case SLE4432: return "SLE4432";
    default: return "SLE4442";
    }
}

static size_t counter_of(uint8_t kind) { return kind == SLE4442 ? 260 : 0x3fd; }

// They come again after so many, which is no part of 65536: on the 128 KiB card each byte of the upper half is another
// than that of the lower half in the same place.
enum { PERIOD = 251 };
static uint8_t memory_byte(size_t at) { return (uint8_t)(at % PERIOD + 1); }

// A card with these protection bytes, but that an SLE4428's 3FDh is not protected, and, where it has a code, a full counter
// and the code 11 22 33. Bytes behind the image are made too: no call is to change them.
static void make_card(uint8_t kind, uint8_t bits) {
    size_t count = image_len_of(kind) + BEHIND;
    for (size_t i = 0; i < PERIOD; i++)
        image[i] = memory_byte(i);
    for (size_t made = PERIOD; made < count; made *= 2)
        memcpy(image + made, image, made < count - made ? made : count - made);
    if (type_of(kind) == 6) {
        memset(image + 256, bits, 4);
        memcpy(image + 260, has_code(kind) ? "\x07\x11\x22\x33" : "\0\0\0", 4);
    }
    if (type_of(kind) == 5)
        memset(image + 1024, bits, 128);
    if (kind == SLE4428) {
        memcpy(image + 0x3fd, "\xff\x11\x22", 3);
        image[1024 + 0x3fd / 8] |= 1 << 0x3fd % 8;
    }
}

static unsigned ones(uint8_t byte) {
    unsigned n = 0;
    for (; byte; byte = (uint8_t)(byte >> 1))
        n += byte & 1;
    return n;
}

// How many bytes of the card that was made are protected, bit by bit.
static unsigned protected_bytes(uint8_t kind) {
    size_t first = type_of(kind) == 6 ? 256 : 1024, last = first + (type_of(kind) == 6 ? 4 : 128);
    unsigned n = 0;
    for (size_t i = first; i < last; i++)
        n += 8 - ones(image[i]);
    return n;
}

// ---- the rows

// A row on a card whose type is selected, with a message of the type and 10 + n bytes. The reader page is 8: that of a card of
// type 01h, while to one of type 02h command 01 was sent with 03h first.
static struct row *add(const char *name, uint8_t kind, uint8_t type, size_t n) {
    if (row_count == ROWS) {
        fprintf(stderr, "bench: there are more than %d rows\n", ROWS);
        _exit(2);
    }
    struct row *row = &rows[row_count++];
    row->name = name;
    row->kind = kind;
    row->bits = 0xff;
    row->record_len = 32;
    row->image_len = image_len_of(kind);
    row->message_len = 10 + n;
    row->answer_len = sizeof answer;
    row->record[0] = kind;
    row->record[1] = 1;
    row->record[2] = type_of(kind);
    row->record[3] = 8;
    row->record[16] = type_of(kind) == 2;
    memcpy(row->record + 5, default_set, 8);
    row->message[0] = type;
    row->message[1] = (uint8_t)n;
    row->message[2] = (uint8_t)(n >> 8);
    row->message[6] = 7;
    row->poke_at = has_code(kind) ? counter_of(kind) : 0;
    row->poke = (uint8_t)(kind == SLE4442 ? 0x07 : kind == SLE4428 ? 0xff : 1);
    row->poke_len = 1;
    return row;
}

// The record gets the counts of its card, on I2C 0. What stands there before is by how much the row has them wrong.
static void store_counts(struct row *row) {
    if (row->kind < SLE4428)
        return;
    make_card(row->kind, row->bits);
    memset(image + row->poke_at, row->poke, row->poke_len);
    unsigned count = protected_bytes(row->kind) + row->record[14];
    row->record[13] = (uint8_t)(row->record[13] + (has_code(row->kind) ? ones(image[counter_of(row->kind)]) : 0));
    row->record[14] = (uint8_t)count;
    row->record[15] = (uint8_t)(count >> 8);
}

// The place of the protection bit of a byte.
static size_t bit_place(uint8_t kind, size_t byte) { return (type_of(kind) == 6 ? 256 : 1024) + byte / 8; }

// A command; brings says how many bytes follow P3, which are those that the card has there.
static struct row *add_command(const char *name, uint8_t kind, uint8_t ins, size_t at, size_t p3, size_t brings) {
    struct row *row = add(name, kind, 0x6f, 5 + brings);
    uint8_t *apdu = row->message + 10;
    apdu[0] = 0xff;
    apdu[1] = ins;
    apdu[2] = (uint8_t)(at >> 8);
    apdu[3] = (uint8_t)at;
    apdu[4] = (uint8_t)p3;
    for (size_t i = 0; i < brings; i++)
        apdu[5 + i] = memory_byte(at + i);
    return row;
}

static struct row *open_card(struct row *row) {
    row->record[4] = 1;
    return row;
}

// The host has chosen that reader page.
static void choose_page(struct row *row, uint8_t page) {
    row->record[3] = page;
    row->record[16] = 1;
}

// Nobody has chosen a reader page, and this is the one there is.
static void leave_page(struct row *row, uint8_t page) {
    row->record[3] = page;
    row->record[16] = 0;
}

// The record has the set in bytes 5 to 12.
static void store_set(struct row *row, const uint8_t *set) { memcpy(row->record + 5, set, 8); }

// A 61h that brings the set.
static void add_set(const char *name, uint8_t kind, const uint8_t *set) {
    size_t n = set[0] ? 7 : 5;
    struct row *row = add(name, kind, 0x61, n);
    row->message[7] = set[0];
    memcpy(row->message + 10, set + 1, n);
}

// An A4 with the card's type.
static struct row *add_select(const char *name, uint8_t kind) {
    struct row *row = add_command(name, kind, 0xa4, 0, 1, 1);
    row->message[15] = type_of(kind);
    return row;
}

// From 10000h on by B1.
static void add_read(const char *name, uint8_t kind, size_t at, size_t p3) {
    add_command(name, kind, at < 0x10000 ? 0xb0 : 0xb1, at, p3, 0);
}

// From 10000h on by D1.
static struct row *add_write(const char *name, uint8_t kind, size_t at, size_t p3) {
    struct row *row = add_command(name, kind, at < 0x10000 ? 0xd0 : 0xd1, at, p3, p3);
    return has_code(kind) ? open_card(row) : row;
}

// A D1 of the card's own bytes. With bits of FFh none of them is protected before the call, with 00h all are.
static void add_protect(const char *name, uint8_t kind, size_t at, size_t p3, uint8_t bits) {
    struct row *row = add_command(name, kind, 0xd1, at, p3, p3);
    if (has_code(kind))
        open_card(row);
    row->bits = bits;
    row->poke_at = bit_place(kind, at);
    row->poke = bits;
    row->poke_len = bit_place(kind, at + p3 - 1) - row->poke_at + 1;
}

// The card of that kind is put into an empty slot.
static void add_insertion(uint8_t kind) {
    struct row *row = add("insertion", kind, kind, 0);
    row->inserts = 1;
    memset(row->record, 0, 3);
    leave_page(row, 8);
}

static void add_code(const char *name, uint8_t kind, const char *code, uint8_t counter) {
    size_t length = kind == SLE4442 ? 3 : 2;
    struct row *row = add_command(name, kind, 0x20, 0, length, length);
    memcpy(row->message + 15, code, length);
    row->poke = counter;
}

static void make_rows(void) {
    struct row *row;
    uint8_t ends[] = { I2C_SMALL, I2C_LARGE }, codes[] = { SLE4442, SLE4428 }, with_bits[] = { SLE4442, SLE4428, SLE4418 };
    uint8_t protecting[] = { SLE4442, SLE4428, SLE4418, SLE4432 };

    add_read("read 1 byte", I2C_SMALL, 0x20, 1);
    add_read("read 1 byte", I2C_32_KIB, 0x4120, 1);
    add_read("read 1 byte", I2C_LARGE, 0x4120, 1);
    add_read("read 1 byte by B1", I2C_LARGE, 0x14120, 1);
    add_read("read 16 bytes", I2C_SMALL, 0x20, 16);
    add_read("read 16 bytes", I2C_32_KIB, 0x4120, 16);
    add_read("read 16 bytes", I2C_LARGE, 0x4120, 16);
    add_read("read 16 bytes over 0FFFFh/10000h", I2C_LARGE, 0xfff8, 16);
    add_read("read 16 bytes by B1", I2C_LARGE, 0x14120, 16);
    add_read("read 255 bytes", I2C_256, 0, 255);
    add_read("read 255 bytes", I2C_32_KIB, 0x4100, 255);
    add_read("read 255 bytes", I2C_LARGE, 0x4100, 255);
    add_read("read 255 bytes over 0FFFFh/10000h", I2C_LARGE, 0xff80, 255);
    add_read("read 255 bytes by B1", I2C_LARGE, 0x14100, 255);
    add_read("read 255 bytes", SLE4442, 0, 255);
    add_read("read 255 bytes, closed", SLE4428, 0x301, 255);
    add_read("read 255 bytes", SLE4418, 0x301, 255);

    add_write("write 1 byte", I2C_SMALL, 0x20, 1);
    add_write("write 1 byte", I2C_32_KIB, 0x4120, 1);
    add_write("write 16 bytes", I2C_SMALL, 0x20, 16);
    add_write("write 16 bytes", I2C_32_KIB, 0x4120, 16);
    add_write("write 255 bytes", I2C_256, 0, 255);
    add_write("write 255 bytes", I2C_32_KIB, 0x4100, 255);
    choose_page(add_write("write 255 bytes, reader page 128", I2C_256, 0, 255), 128);
    choose_page(add_write("write 255 bytes, reader page 128", I2C_32_KIB, 0x4100, 255), 128);
    leave_page(add_write("write 255 bytes, reader page 32 by A4", I2C_32_KIB, 0x4100, 255), 32);
    add_write("write 1 byte", I2C_LARGE, 0x4120, 1);
    choose_page(add_write("write 1 byte, reader page 128", I2C_LARGE, 0x4120, 1), 128);
    add_write("write 1 byte by D1", I2C_LARGE, 0x14120, 1);
    add_write("write 16 bytes", I2C_LARGE, 0x4120, 16);
    choose_page(add_write("write 16 bytes, reader page 128", I2C_LARGE, 0x4120, 16), 128);
    add_write("write 16 bytes over 0FFFFh/10000h", I2C_LARGE, 0xfff8, 16);
    add_write("write 16 bytes by D1", I2C_LARGE, 0x14120, 16);
    add_write("write 255 bytes", I2C_LARGE, 0x4100, 255);
    choose_page(add_write("write 255 bytes, reader page 128", I2C_LARGE, 0x4100, 255), 128);
    leave_page(add_write("write 255 bytes, reader page 32 by A4", I2C_LARGE, 0x4100, 255), 32);
    add_write("write 255 bytes over 0FFFFh/10000h", I2C_LARGE, 0xff80, 255);
    add_write("write 255 bytes by D1", I2C_LARGE, 0x14100, 255);
    choose_page(add_write("write 255 bytes by D1, reader page 128", I2C_LARGE, 0x14100, 255), 128);
    add_write("write 16 bytes", SLE4442, 0x10, 16);
    add_write("write 16 bytes", SLE4428, 0x10, 16);
    add_write("write 255 bytes", SLE4442, 0, 255);
    add_write("write 255 bytes", SLE4428, 3, 255);
    add_write("write 16 bytes", SLE4432, 0x10, 16);
    add_write("write 16 bytes", SLE4418, 0x10, 16);
    add_write("write 255 bytes", SLE4418, 3, 255);

    // What is sent for a protected byte is what it holds, but where every second one is protected: there the first of them
    // is another, and the answer 65 81.
    for (size_t i = 0; i < 3; i++) {
        uint8_t kind = with_bits[i];
        size_t at = kind == SLE4442 ? 0 : 3;
        row = add_write("write 255 bytes, one in the middle protected", kind, at, 255);
        row->poke_at = bit_place(kind, kind == SLE4442 ? 16 : 128);
        row->poke = 0xfe;
        row = add_write("write 255 bytes, every second protected", kind, at, 255);
        row->bits = 0xaa;
        row->message[15 + at % 2] ^= 1;
        row = add_write("write 16 bytes, the last protected", kind, 0x10, 16);
        row->poke_at = bit_place(kind, 0x1f);
        row->poke = 0x7f;
        add_write("write 16 bytes, all protected", kind, 0x10, 16)->bits = 0x00;
    }

    for (size_t i = 0; i < 2; i++) {
        uint8_t full = (uint8_t)(codes[i] == SLE4442 ? 0x07 : 0xff);
        add_code("present a wrong code", codes[i], "\x11\x23\x33", full);
        add_code("present the right code", codes[i], "\x11\x22\x33", full);
        add_code("present with no tries left", codes[i], "\x11\x22\x33", 0);
    }

    add_command("protection bits of 32 bytes", SLE4442, 0xb2, 0, 4, 0);
    add_command("protection bits of 32 bytes", SLE4428, 0xb2, 0x40, 4, 0);
    add_command("protection bits of 256 bytes", SLE4428, 0xb2, 0x40, 32, 0);
    add_command("protection bits of 256 bytes", SLE4418, 0xb2, 0x40, 32, 0);
    add_command("protection bits of 256 bytes from 43h", SLE4428, 0xb2, 0x43, 32, 0);
    for (size_t i = 0; i < 4; i++) {
        uint8_t kind = protecting[i];
        size_t at = type_of(kind) == 6 ? 0 : kind == SLE4428 ? 0x40 : 0x3e0;
        add_protect("protect 16 bytes", kind, at, 16, 0xff);
        add_protect("protect 32 bytes", kind, at, 32, 0xff);
        add_protect("protect 32 bytes, all protected already", kind, at, 32, 0x00);
    }
    add_protect("protect 255 bytes", SLE4428, 3, 255, 0xff);
    add_protect("protect 255 bytes", SLE4418, 3, 255, 0xff);
    add_protect("protect 255 bytes, all protected already", SLE4428, 3, 255, 0x00);
    add_protect("protect 255 bytes, all protected already", SLE4418, 3, 255, 0x00);

    for (size_t i = 0; i < 2; i++) {
        add_command("refused, 1: short buffer", ends[i], 0xb0, 0, 16, 0)->answer_len--;
        add_command("refused, 2: short message", ends[i], 0xb0, 0, 16, 0)->message_len = 9;
        add_command("refused, 3: short image", ends[i], 0xb0, 0, 16, 0)->image_len--;
        add_command("refused, 4: last byte of the record", ends[i], 0xb0, 0, 16, 0)->record[31] = 1;
        store_set(add_command("refused, 4: last byte of the set", ends[i], 0xb0, 0, 16, 0), bad_set);
        add("fault: unsupported type", ends[i], 0x64, 0);
        add_command("fault: dwLength", ends[i], 0xb0, 0, 16, 0)->message[4] = 1;
        add_set("fault: last byte of a set", ends[i], bad_set);
        add_command("step 1: short command", ends[i], 0xb0, 0, 16, 0);
        row = &rows[row_count - 1];
        row->message_len = 14;
        row->message[1] = 4;
        add_command("step 5: not this card's", ends[i], 0xb2, 0, 4, 0);
        add_read("step 7: past the memory", ends[i], image_len_of(ends[i]) - 15, 16);
    }
    add_command("step 5: B1", I2C_SMALL, 0xb1, 0, 4, 0);
    add_command("step 5: B1", I2C_64_KIB, 0xb1, 0, 4, 0);
    add_read("step 7: past the memory", I2C_64_KIB, 0xfff1, 16);
    add("refused, 3: last byte of the image", SLE4432, 0x65, 0)->poke_at = 263;
    for (size_t i = 0; i < 2; i++)
        add("refused, 4: tries left", codes[i], 0x65, 0)->record[13] = 1;
    for (size_t i = 0; i < 4; i++)
        add("refused, 4: number of protected bytes", protecting[i], 0x65, 0)->record[14] = 1;
    for (size_t i = 0; i < 2; i++)
        add("refused, 4: number of protected bytes", ends[i], 0x65, 0)->record[14] = 1;
    row = add("refused, 4: no card, and the page chosen", 0, 0x65, 0);
    row->image_len = 0;
    memset(row->record, 0, 3);
    choose_page(row, 8);
    add_command("step 5: not this card's", SLE4432, 0x20, 0, 3, 3);
    for (size_t i = 0; i < 2; i++) {
        add_command("step 9: write while closed", codes[i], 0xd0, 0x10, 16, 16);
    }

    for (size_t i = 0; i < 2; i++) {
        add_select("select the type", codes[i]);
        add_command("read the counter", codes[i], 0xb1, 0, codes[i] == SLE4442 ? 4 : 3, 0);
        add("power on", codes[i], 0x62, 0);
    }
    add("power on", SLE4432, 0x62, 0);
    for (size_t i = 0; i < 2; i++) {
        leave_page(add_select("select the type", ends[i]), 8);
        choose_page(add_select("select the type, the page chosen", ends[i]), 8);
    }
    row = open_card(add_command("change the code", SLE4442, 0xd2, 1, 3, 3));
    memcpy(row->message + 15, "\x11\x22\x33", 3);
    for (size_t i = 0; i < 2; i++) {
        add_command("set the reader page", ends[i], 0x01, 0, 1, 1);
        rows[row_count - 1].message[15] = 5;
        add("power off", ends[i], 0x63, 0);
        add("slot status", ends[i], 0x65, 0);
    }
    for (size_t i = 0; i < 4; i++)
        add("slot status", protecting[i], 0x65, 0);
    add("slot status, every second protected", SLE4428, 0x65, 0)->bits = 0xaa;
    row = add("slot status", 0, 0x65, 0);
    row->image_len = 0;
    memset(row->record, 0, 3);
    add_insertion(I2C_SMALL);
    add_insertion(I2C_64_KIB);
    add_insertion(I2C_LARGE);
    for (size_t i = 0; i < 4; i++)
        add_insertion(protecting[i]);

    for (size_t i = 0; i < 2; i++) {
        add("get parameters, T=0", ends[i], 0x6c, 0);
        store_set(add("get parameters, T=1", ends[i], 0x6c, 0), t1_set);
        add_set("set parameters, T=0", ends[i], t0_set);
        add_set("set parameters, T=1", ends[i], t1_set);
        store_set(add("reset parameters", ends[i], 0x6d, 0), t1_set);
        store_set(add_command("read 16 bytes, T=1 stored", ends[i], 0xb0, 0x20, 16, 0), t1_set);
    }

    for (size_t i = 0; i < row_count; i++)
        if (!rows[i].inserts)
            store_counts(&rows[i]);
}

// ---- calls

__attribute__((always_inline)) static inline int32_t call_once(message_call *call, const struct row *row) {
    memcpy(record, row->record, sizeof record);
    memset(image + row->poke_at, row->poke, row->poke_len);
    return call(record, row->record_len, image, row->image_len, row->message, row->message_len, answer, row->answer_len);
}

__attribute__((noinline)) static void run(message_call *call, const struct row *row, unsigned count) {
    for (unsigned i = 0; i < count; i++)
        call_once(call, row);
}

__attribute__((noinline)) static int32_t nothing(uint8_t *r, size_t rl, uint8_t *i, size_t il, const uint8_t *m,
                                                 size_t ml, uint8_t *a, size_t al) {
    (void)r, (void)rl, (void)i, (void)il, (void)m, (void)ml, (void)a, (void)al;
    return 0;
}

__attribute__((noinline)) static int32_t nothing_in(uint8_t *r, size_t rl, uint8_t kind, const uint8_t *i, size_t il) {
    (void)r, (void)rl, (void)kind, (void)i, (void)il;
    return 0;
}

// An insertion, called as a message is. Its function is read anew, as those below are.
static insert_call *volatile insertions[] = { nothing_in, card_reader_insert, plain_insert };
#define INSERTS(name, which)                                                                                            \
    __attribute__((noinline)) static int32_t name(uint8_t *r, size_t rl, uint8_t *i, size_t il, const uint8_t *m,       \
                                                  size_t ml, uint8_t *a, size_t al) {                                   \
        (void)ml, (void)a, (void)al;                                                                                    \
        return insertions[which](r, rl, m[0], i, il);                                                                   \
    }
enum { EMPTY, LIBRARY, PLAIN };
INSERTS(insert_nothing, EMPTY)
INSERTS(insert_library, LIBRARY)
INSERTS(insert_plain, PLAIN)

// Read anew at each use, so that the three loops differ in nothing but the call.
static message_call *volatile messages[] = { nothing, card_reader_message, plain_message };
static message_call *volatile inserting[] = { insert_nothing, insert_library, insert_plain };

static message_call *call_of(const struct row *row, int which) { return (row->inserts ? inserting : messages)[which]; }

static int begins(const char *name, const char *with) {
    for (; *with && *with == *name; with++)
        name++;
    return !*with;
}

// Whether a row came to what its name says: `refused, N: ..` to that refusal, `fault: ..` to a failed message, `step N: ..` to
// a status word that refuses; any other to a card that is in, or to an answer that is none of these.
static int is_as_named(const struct row *row, int32_t result) {
    if (begins(row->name, "refused, "))
        return result == '0' - row->name[9];
    if (row->inserts)
        return result == 0;
    if (result < 10)
        return 0;
    int failed = answer[7] >> 6 & 1;
    if (failed || begins(row->name, "fault: "))
        return failed && begins(row->name, "fault: ");
    unsigned word = (unsigned)answer[result - 2] << 8 | answer[result - 1];
    return (row->message[0] == 0x6f && word >> 8 != 0x90 && word != 0x6581) == begins(row->name, "step ");
}

// Whether both readers give the same result, record, image and answer buffer in every row, and one that its name says.
static int both_agree(void) {
    static uint8_t seen_image[sizeof image];
    uint8_t seen_record[32], seen_answer[sizeof answer];
    for (size_t i = 0; i < row_count; i++) {
        size_t seen = image_len_of(rows[i].kind) + BEHIND;
        make_card(rows[i].kind, rows[i].bits);
        memset(answer, 0x5a, sizeof answer);
        int32_t result = call_once(call_of(&rows[i], LIBRARY), &rows[i]);
        if (!is_as_named(&rows[i], result)) {
            fprintf(stderr, "bench: not what it says, the library returns %d: %s, %s\n", (int)result, rows[i].name,
                    card_of(rows[i].kind));
            return 0;
        }
        memcpy(seen_record, record, sizeof record);
        memcpy(seen_image, image, seen);
        memcpy(seen_answer, answer, sizeof answer);
        make_card(rows[i].kind, rows[i].bits);
        memset(answer, 0x5a, sizeof answer);
        if (call_once(call_of(&rows[i], PLAIN), &rows[i]) != result || memcmp(seen_record, record, sizeof record) ||
            memcmp(seen_image, image, seen) || memcmp(seen_answer, answer, sizeof answer)) {
            fprintf(stderr, "bench: the readers differ: %s, %s\n", rows[i].name, card_of(rows[i].kind));
            return 0;
        }
    }
    return 1;
}

// Whether they give the same result and record for an insertion and for a removal.
static int both_agree_on(uint8_t in, uint8_t fill, size_t length, uint8_t kind) {
    uint8_t ours[32], theirs[32];
    memset(ours, fill, sizeof ours);
    ours[0] = in;
    memcpy(theirs, ours, sizeof ours);
    make_card(kind, fill);
    int same = card_reader_insert(ours, length, kind, image, image_len_of(kind)) ==
               plain_insert(theirs, length, kind, image, image_len_of(kind));
    same &= !memcmp(ours, theirs, sizeof ours);
    memset(ours + 1, fill, sizeof ours - 1);
    memset(theirs + 1, fill, sizeof theirs - 1);
    same &= card_reader_remove(ours, length) == plain_remove(theirs, length);
    return same && !memcmp(ours, theirs, sizeof ours);
}

// The same of cards that go in and out, over records whatever is in them, with more and fewer bytes protected.
static int both_agree_on_cards(void) {
    static const uint8_t kinds[] = { I2C_SMALL, I2C_64_KIB, I2C_LARGE, SLE4428, SLE4418, SLE4442, SLE4432 };
    for (size_t i = 0; i < sizeof kinds; i++)
        for (unsigned fill = 0; fill < 256; fill += 51)
            for (size_t length = 31; length <= 32; length++)
                for (uint8_t in = 0; in < 2; in++)
                    if (!both_agree_on(in, (uint8_t)fill, length, kinds[i])) {
                        fprintf(stderr, "bench: the readers differ: a card in and out, %s\n", card_of(kinds[i]));
                        return 0;
                    }
    return 1;
}

// ---- instructions

// A mark has the same length and cost for every row: what it costs is in the empty loop too.
static void mark(size_t row, char who) {
    char text[] = "\n@ 000 x\n";
    text[3] = (char)('0' + row / 100 % 10);
    text[4] = (char)('0' + row / 10 % 10);
    text[5] = (char)('0' + row % 10);
    text[7] = who;
    write(2, text, sizeof text - 1);
}

__attribute__((noinline)) static void marked(size_t at, char who, message_call *call) {
    mark(at, who);
    run(call, &rows[at], CALLS);
    mark(at, 'x');
}

static void count(unsigned rounds) {
    for (size_t i = 0; i < row_count; i++) {
        const struct row *row = &rows[i];
        printf("%03u\t%s\t%s\t%u\n", (unsigned)i, row->name, card_of(row->kind), (unsigned)CALLS);
        make_card(row->kind, row->bits);
        for (unsigned round = 0; round < rounds; round++) {
            marked(i, 'e', call_of(row, EMPTY));
            marked(i, 'l', call_of(row, LIBRARY));
            marked(i, 'c', call_of(row, PLAIN));
        }
    }
}

// ---- instructions, one by one: a child makes the calls, and its parent steps through them

enum { PLACE_OF_RIP = 128 };

__attribute__((noinline)) static void region_end(void) { __asm__ volatile(""); }

__attribute__((noinline)) static void region(message_call *call, const struct row *row) {
    __asm__ volatile("int3");
    run(call, row, CALLS);
    region_end();
}

// Lets the child go on; whether it stopped at a trap.
static int goes(pid_t child, enum __ptrace_request request) {
    int status = 0;
    ptrace(request, child, 0L, 0L);
    return waitpid(child, &status, 0) == child && WIFSTOPPED(status) && WSTOPSIG(status) == SIGTRAP;
}

// The instructions of the child's next region, or 0 where it broke off.
static double region_steps(pid_t child) {
    double steps = 0;
    if (!goes(child, PTRACE_CONT))
        return 0;
    do {
        if (!goes(child, PTRACE_SINGLESTEP))
            return 0;
        steps++;
    } while ((uintptr_t)ptrace(PTRACE_PEEKUSER, child, (long)PLACE_OF_RIP, 0L) != (uintptr_t)region_end);
    return steps;
}

static void make_regions(void) {
    ptrace(PTRACE_TRACEME, 0, 0L, 0L);
    for (size_t i = 0; i < row_count; i++) {
        make_card(rows[i].kind, rows[i].bits);
        region(call_of(&rows[i], EMPTY), &rows[i]);
        region(call_of(&rows[i], LIBRARY), &rows[i]);
        region(call_of(&rows[i], PLAIN), &rows[i]);
    }
    _exit(0);
}

// Number, row, card, instructions of the library and of C, and the ratio thrice, as time_rows has it.
static int step_rows(void) {
    pid_t child = fork();
    if (child == 0)
        make_regions();
    for (size_t i = 0; i < row_count; i++) {
        double none = region_steps(child), ours = region_steps(child) - none, theirs = region_steps(child) - none;
        if (none <= 0 || ours <= 0 || theirs <= 0) {
            fprintf(stderr, "bench: the child could not be stepped through\n");
            return 1;
        }
        double ratio = ours / theirs;
        printf("%03u\t%s\t%s\t%.1f\t%.1f\t%.3f\t%.3f\t%.3f\n", (unsigned)i, rows[i].name, card_of(rows[i].kind),
               ours / CALLS, theirs / CALLS, ratio, ratio, ratio);
    }
    ptrace(PTRACE_CONT, child, 0L, 0L);
    waitpid(child, NULL, 0);
    return 0;
}

// ---- time

static double seconds(void) {
    struct timespec now;
    clock_gettime(CLOCK_MONOTONIC, &now);
    return (double)now.tv_sec + (double)now.tv_nsec * 1e-9;
}

// Nanoseconds of a call: of some short runs the least, so that one does not count in which the processor did other work.
static double timed(message_call *call, const struct row *row) {
    double least = 0;
    for (unsigned i = 0; i < TIMED_RUNS; i++) {
        double start = seconds();
        run(call, row, TIMED_CALLS);
        double took = (seconds() - start) * 1e9 / TIMED_CALLS;
        if (i == 0 || took < least)
            least = took;
    }
    return least;
}

static void sort(double *values, unsigned n) {
    for (unsigned i = 1; i < n; i++)
        for (unsigned k = i; k > 0 && values[k] < values[k - 1]; k--) {
            double swapped = values[k];
            values[k] = values[k - 1];
            values[k - 1] = swapped;
        }
}

// Number, row, card, nanoseconds of the library and of C, ratio: median, least, most.
static void time_rows(unsigned rounds) {
    static double ours[MOST_ROUNDS], theirs[MOST_ROUNDS], ratios[MOST_ROUNDS];
    for (size_t i = 0; i < row_count; i++) {
        const struct row *row = &rows[i];
        make_card(row->kind, row->bits);
        message_call *empty = call_of(row, EMPTY), *library = call_of(row, LIBRARY), *plain = call_of(row, PLAIN);
        timed(library, row);
        timed(plain, row);
        for (unsigned round = 0; round < rounds; round++) {
            double loop = timed(empty, row), first = timed(round % 2 ? plain : library, row);
            double second = timed(round % 2 ? library : plain, row);
            ours[round] = (round % 2 ? second : first) - loop;
            theirs[round] = (round % 2 ? first : second) - loop;
            ratios[round] = ours[round] / theirs[round];
        }
        sort(ours, rounds);
        sort(theirs, rounds);
        sort(ratios, rounds);
        printf("%03u\t%s\t%s\t%.1f\t%.1f\t%.3f\t%.3f\t%.3f\n", (unsigned)i, row->name, card_of(row->kind),
               ours[rounds / 2], theirs[rounds / 2], ratios[rounds / 2], ratios[0], ratios[rounds - 1]);
    }
}

int main(int argc, char **argv) {
    unsigned rounds = 0;
    for (const char *digit = argc == 3 ? argv[2] : ""; *digit >= '0' && *digit <= '9' && rounds < 100; digit++)
        rounds = rounds * 10 + (unsigned)(*digit - '0');
    make_rows();
    if (argc == 2 && !strcmp(argv[1], "agree"))
        return !both_agree() || !both_agree_on_cards();
    if (argc == 3 && rounds > 0 && !strcmp(argv[1], "time"))
        time_rows(rounds);
    else if (argc == 3 && rounds > 0 && !strcmp(argv[1], "count"))
        count(rounds);
    else if (argc == 2 && !strcmp(argv[1], "steps"))
        return step_rows();
    else {
        fprintf(stderr, "usage: bench agree | time ROUNDS | count ROUNDS | steps\n");
        return 2;
    }
    return 0;
}
