// The reader in plain C: tables per kind and type, masks for pages and bits, memcpy for every run of
// bytes. The tests stand in the order of the rules.
#include "plain.h"

#include <string.h>

enum { RECORD = 32, HEADER = 10, ANSWER_BUFFER = 271, LONGEST_DATA = 261 };
enum { KIND = 0, ACTIVE = 1, SELECTED = 2, PAGE = 3, OPEN = 4, PROTOCOL = 5, SET = 6, TRIES = 13, PROTECTED = 14, CHOSEN = 16 };
enum { SET_PARAMETERS = 0x61, POWER_ON = 0x62, POWER_OFF = 0x63, SLOT_STATUS = 0x65 };
enum { GET_PARAMETERS = 0x6c, RESET_PARAMETERS = 0x6d, TRANSFER = 0x6f };
enum { SLE4428 = 20, SLE4418 = 21, SLE4442 = 30, SLE4432 = 31 };
enum { TYPE_01 = 0x01, TYPE_02 = 0x02, TYPE_05 = 0x05, TYPE_06 = 0x06 };
enum { REFUSED_BUFFER = -1, REFUSED_MESSAGE = -2, REFUSED_IMAGE = -3, REFUSED_RECORD = -4, REFUSED_OCCUPIED = -5 };
enum {
    DONE = 0x9000,
    WRONG_LENGTH = 0x6700,
    WRONG_CLASS = 0x6e00,
    WRONG_INS = 0x6d00,
    NOTHING_SELECTED = 0x6985,
    WRONG_PLACE = 0x6b00,
    WRONG_VALUE = 0x6a80,
    NOT_ALLOWED = 0x6982,
    NOT_AS_SENT = 0x6581
};

// The commands in a row, so that a chip's commands are a mask; 0 is none. A4 is any chip's, and B0 to
// B2 bring no data.
enum { A4 = 1, B0, B1, B2, C01, D0, D1, C20, D2 };
enum { OF_I2C = 1 << A4 | 1 << C01 | 1 << B0 | 1 << D0, OF_I2C_17 = OF_I2C | 1 << B1 | 1 << D1 };
enum { OF_NO_CODE = 1 << A4 | 1 << B0 | 1 << B2 | 1 << D0 | 1 << D1 };
enum { OF_4428 = OF_NO_CODE | 1 << B1 | 1 << C20, OF_4442 = OF_4428 | 1 << D2 };

static const uint8_t place_of[256] = {
    [0xa4] = A4, [0x01] = C01, [0xb0] = B0, [0xb1] = B1, [0xb2] = B2,
    [0xd0] = D0, [0xd1] = D1, [0x20] = C20, [0xd2] = D2,
};

// A row of the cards. An image length of 0 is no kind; a page of 0 is a card with protection bits; a full
// counter of 0 is no code card, and where such a card has bits, the counter's place is past the image. The tries
// are those of a full counter.
struct chip {
    uint32_t image, memory;
    uint16_t commands, counter, protection, protectable, d1_end, page;
    uint8_t select, full, tries, code_len;
};

// The reader page that A4 sets where the host has chosen none, by type; 0 leaves it.
static const uint8_t page_of[] = { [TYPE_01] = 8, [TYPE_02] = 32, [TYPE_06] = 0 };

// On the I2C card with 17 address bits B1 and D1 are B0 and D0 with the top bit.
enum { TOP_BIT = 0x10000 };

#define I2C(bytes, page, select) { bytes, bytes, OF_I2C, 0, 0, 0, 0, page, select, 0, 0, 0 }
static const struct chip chips[] = {
    [1] = I2C(128, 8, 1),     [2] = I2C(256, 8, 1),     [3] = I2C(512, 16, 1),
    [4] = I2C(1024, 16, 1),   [5] = I2C(2048, 16, 1),   [6] = I2C(4096, 32, 2),
    [7] = I2C(8192, 32, 2),   [8] = I2C(16384, 64, 2),  [9] = I2C(32768, 64, 2),
    [10] = I2C(65536, 128, 2),
    [11] = { 131072, 131072, OF_I2C_17, 0, 0, 0, 0, 256, 2, 0, 0, 0 },
    [SLE4428] = { 1152, 1024, OF_4428, 0x3fd, 1024, 1024, 0x3fd, 0, TYPE_05, 0xff, 8, 2 },
    [SLE4418] = { 1152, 1024, OF_NO_CODE, 1152, 1024, 1024, 1024, 0, TYPE_05, 0, 0, 0 },
    [SLE4442] = { 264, 256, OF_4442, 260, 256, 32, 32, 0, TYPE_06, 0x07, 3, 3 },
    [SLE4432] = { 264, 256, OF_NO_CODE, 264, 256, 32, 32, 0, TYPE_06, 0, 0, 0 },
};

// The chip of a kind that the image is one of, or none.
static inline const struct chip *chip_of(uint8_t kind, const uint8_t *image, size_t image_len) {
    if (kind >= sizeof chips / sizeof chips[0])
        return NULL;
    const struct chip *chip = &chips[kind];
    if (image_len != chip->image || image_len == 0)
        return NULL;
    if (kind == SLE4442 && image[260] > 0x07)
        return NULL;
    if (kind == SLE4428 && !(image[1024 + 0x3fd / 8] & 1 << 0x3fd % 8))
        return NULL;
    if (kind == SLE4432 && (image[260] | image[261] | image[262] | image[263]))
        return NULL;
    return chip;
}

// The record without a card. Its eight bytes from PROTOCOL on are the default set: a protocol number,
// its bytes, and 00h for the two that T=0 lacks.
static const uint8_t no_card[RECORD] = { [PAGE] = 8, [SET] = 0x11, [SET + 3] = 0x0a };

// The entries that ISO/IEC 7816-3:1997 reserves, a bit each.
enum { RESERVED_FI = 1 << 7 | 1 << 8 | 1 << 14 | 1 << 15, RESERVED_DI = 1 << 0 | 1 << 7 | 0x3f << 10 };

// The bError that 61h gives for a set, or 0 where it takes it.
static inline unsigned set_fault(unsigned protocol, const uint8_t *set, size_t n) {
    if (protocol > 1 || n != 5 + 2 * protocol)
        return 0x07;
    if ((RESERVED_FI >> (set[0] >> 4) | RESERVED_DI >> (set[0] & 15)) & 1)
        return 0x0a;
    if (set[1] >> 2 != protocol << 2)
        return 0x0b;
    if (protocol && set[3] >> 4 > 9)
        return 0x0d;
    if (set[4] > 3)
        return 0x0e;
    if (protocol && set[6])
        return 0x10;
    return 0;
}

static inline void set_default(uint8_t *record) { memcpy(record + PROTOCOL, no_card + PROTOCOL, 8); }

// Whether 61h would take the stored set. Most often it is the default.
static inline int set_is_sound(const uint8_t *record, const struct chip *chip) {
    if (!memcmp(record + PROTOCOL, no_card + PROTOCOL, 8))
        return 1;
    unsigned protocol = record[PROTOCOL];
    if (!chip || protocol > 1 || set_fault(protocol, record + SET, 5 + 2 * protocol))
        return 0;
    return protocol || !(record[SET + 5] | record[SET + 6]);
}

// Tries left: the one bits of the counter, 0 without a code.
static inline unsigned tries_in(const struct chip *chip, const uint8_t *image) {
    return chip->full ? (unsigned)__builtin_popcount(image[chip->counter]) : 0;
}

// The number of protected bytes: the zero bits of the protection bytes, in one word of four bytes or sixteen of eight.
static inline unsigned protected_in(const struct chip *chip, const uint8_t *image) {
    const uint8_t *bits = image + chip->protection;
    uint64_t eight;
    uint32_t four;
    if (chip->select == TYPE_06) {
        memcpy(&four, bits, 4);
        return 32 - (unsigned)__builtin_popcount(four);
    }
    if (chip->select != TYPE_05)
        return 0;
    unsigned ones = 0;
    for (size_t i = 0; i < 128; i += 8) {
        memcpy(&eight, bits + i, 8);
        ones += (unsigned)__builtin_popcountll(eight);
    }
    return 1024 - ones;
}

// The stored number of protected bytes, low byte first.
static inline unsigned stored_protected(const uint8_t *record) { return record[PROTECTED] | record[PROTECTED + 1] << 8; }

static inline void store_protected(uint8_t *record, unsigned count) {
    record[PROTECTED] = (uint8_t)count;
    record[PROTECTED + 1] = (uint8_t)(count >> 8);
}

// Whether both stored counts are the image's, or with no card 0.
static inline int counts_are_true(const uint8_t *record, const struct chip *chip, const uint8_t *image) {
    if (!chip)
        return !(record[TRIES] | stored_protected(record));
    return record[TRIES] == tries_in(chip, image) && stored_protected(record) == protected_in(chip, image);
}

// Whether CHOSEN is 0 or 1 and all behind it 00h: of sixteen bytes only the lowest bit of the first may be 1.
static inline int rest_is_blank(const uint8_t *record) {
    uint64_t a, b;
    memcpy(&a, record + CHOSEN, 8);
    memcpy(&b, record + CHOSEN + 8, 8);
    return (a & ~(uint64_t)1) == 0 && b == 0;
}

static inline int is_sound(const uint8_t *record, const struct chip *chip, const uint8_t *image) {
    uint8_t page = record[PAGE], selected = record[SELECTED], open = record[OPEN];
    if (record[ACTIVE] > 1 || open > 1 || !rest_is_blank(record) || !set_is_sound(record, chip))
        return 0;
    if (page < 8 || page > 128 || (page & (page - 1)))
        return 0;
    if (!record[ACTIVE])
        return !selected && !open && (chip || (page == 8 && !record[CHOSEN]));
    if (!chip)
        return 0;
    if (selected && selected != chip->select)
        return 0;
    return !open || (selected && chip->full && image[chip->counter] == chip->full);
}

// Whether the card waits for its code: one without never does.
static inline int is_locked(const uint8_t *record, const struct chip *chip) { return !record[OPEN] && chip->full; }

// The bits first..7 and 0..last of a byte.
#define FROM(first) (0xffu << (first) & 0xffu)
#define UPTO(last) (0xffu >> (7 - (last)))

// Whether no byte of first..end-1 is protected; they are one at least.
static inline int none_protected(const struct chip *chip, const uint8_t *image, size_t first, size_t end) {
    const uint8_t *bits = image + chip->protection;
    if (end > chip->protectable)
        end = chip->protectable;
    if (first >= end)
        return 1;
    size_t i = first / 8, last = (end - 1) / 8;
    unsigned mask = FROM(first % 8);
    for (; i < last; i++, mask = 0xff)
        if (~bits[i] & mask)
            return 0;
    return !(~bits[i] & mask & UPTO((end - 1) % 8));
}

// D0 on a card with protection bits: the bytes at..end-1 but for those that are protected, most often none. Whether each
// of them then is the one sent.
static int store_unprotected(const struct chip *chip, uint8_t *restrict image, size_t at, size_t end,
                             const uint8_t *restrict data) {
    if (none_protected(chip, image, at, end)) {
        memcpy(image + at, data, end - at);
        return 1;
    }
    const uint8_t *bits = image + chip->protection;
    size_t last = end < chip->protectable ? end : chip->protectable;
    int equal = 1;
    while (at < last) {
        size_t stop = (at | 7) + 1 < last ? (at | 7) + 1 : last;
        unsigned free = bits[at / 8] >> at % 8;
        if (free == 0xff && stop - at == 8) {
            memcpy(image + at, data, 8);
            at += 8;
            data += 8;
            continue;
        }
        for (; at < stop; at++, data++, free >>= 1)
            if (free & 1)
                image[at] = *data;
            else
                equal &= image[at] == *data;
    }
    memcpy(image + at, data, end - at);
    return equal;
}

// D1: each byte of at..end-1 that is the one sent becomes protected. How many were not before.
static unsigned protect_equal(const uint8_t *image, uint8_t *bits, size_t at, size_t end, const uint8_t *restrict data) {
    unsigned more = 0;
    for (; at < end; at++, data++)
        if (image[at] == *data) {
            unsigned was = bits[at / 8];
            more += was >> at % 8 & 1;
            bits[at / 8] = (uint8_t)(was & ~(1u << at % 8));
        }
    return more;
}

// D0 on I2C. Up to the chip's page the cuts change nothing: the range holds the data.
static void write_pages(uint8_t *restrict image, size_t at, const uint8_t *restrict data, size_t left,
                        size_t reader_page, size_t chip_page) {
    if (reader_page <= chip_page) {
        memcpy(image + at, data, left);
        return;
    }
    while (left) {
        size_t cut = reader_page - (at & (reader_page - 1));
        if (cut > left)
            cut = left;
        left -= cut;
        uint8_t *page = image + (at & ~(chip_page - 1));
        size_t low = at & (chip_page - 1);
        at += cut;
        while (cut) {
            size_t run = chip_page - low;
            if (run > cut)
                run = cut;
            memcpy(page + low, data, run);
            data += run;
            cut -= run;
            low = 0;
        }
    }
}

// The protection bits from an address on, the first in bit 0 of the first byte.
static void read_bits(const uint8_t *restrict bits, size_t at, size_t count, uint8_t *restrict out) {
    bits += at / 8;
    unsigned shift = at % 8;
    if (!shift) {
        memcpy(out, bits, count);
        return;
    }
    for (size_t i = 0; i < count; i++)
        out[i] = (uint8_t)(bits[i] >> shift | bits[i + 1] << (8 - shift));
}

// A status word behind this many bytes of data.
#define BEHIND(count, word) ((unsigned)(count) << 16 | (word))

// "Commands inside 6Fh": the status word and how many data are in front of it in out.
static inline unsigned command(uint8_t *restrict record, const struct chip *chip, uint8_t *restrict image,
                               const uint8_t *restrict apdu, size_t n, uint8_t *restrict out) {
    if (n < 5)
        return WRONG_LENGTH;
    if (apdu[0] != 0xff)
        return WRONG_CLASS;
    unsigned ins = place_of[apdu[1]];
    if (!ins)
        return WRONG_INS;
    if (ins != A4 && !record[SELECTED])
        return NOTHING_SELECTED;
    if (!(chip->commands >> ins & 1))
        return WRONG_INS;

    size_t p3 = apdu[4], at = (size_t)apdu[2] << 8 | apdu[3], end = at + p3;
    const uint8_t *data = apdu + 5;
    if (n != (ins - B0 <= B2 - B0 ? 5 : 5 + p3))
        return WRONG_LENGTH;

    switch (ins) {
    case A4:
        if (p3 != 1)
            return WRONG_LENGTH;
        if (at != 0)
            return WRONG_PLACE;
        if (data[0] != chip->select)
            return WRONG_VALUE;
        record[SELECTED] = chip->select;
        record[OPEN] = 0;
        if (page_of[chip->select] && !record[CHOSEN])
            record[PAGE] = page_of[chip->select];
        return DONE;
    case C01:
        if (p3 != 1)
            return WRONG_LENGTH;
        if (at != 0)
            return WRONG_PLACE;
        if (data[0] < 3 || data[0] > 7)
            return WRONG_VALUE;
        record[PAGE] = (uint8_t)(1 << data[0]);
        record[CHOSEN] = 1;
        return DONE;
    case B1:
        if (!chip->page) {
            if (p3 != chip->code_len + 1u)
                return WRONG_LENGTH;
            if (at != 0)
                return WRONG_PLACE;
            out[0] = image[chip->counter];
            out[1] = out[2] = 0;
            if (p3 == 4)
                out[3] = 0;
            return BEHIND(p3, DONE);
        }
        at += TOP_BIT;
        end += TOP_BIT;
        // fall through
    case B0:
        if (p3 == 0)
            return WRONG_LENGTH;
        if (end > chip->memory)
            return WRONG_PLACE;
        memcpy(out, image + at, p3);
        if (chip->full == 0xff && end > 0x3fe && !record[OPEN]) {
            if (at <= 0x3fe)
                out[0x3fe - at] = 0;
            if (end > 0x3ff)
                out[0x3ff - at] = 0;
        }
        return BEHIND(p3, DONE);
    case B2:
        if (chip->select == TYPE_06) {
            if (p3 != 4)
                return WRONG_LENGTH;
            if (at != 0)
                return WRONG_PLACE;
            memcpy(out, image + 256, 4);
            return BEHIND(4, DONE);
        }
        if (p3 == 0 || p3 > 32)
            return WRONG_LENGTH;
        if (at + 8 * p3 > 1024)
            return WRONG_PLACE;
        read_bits(image + 1024, at, p3, out);
        return BEHIND(p3, DONE);
    case D1:
        if (!chip->page) {
            if (p3 == 0)
                return WRONG_LENGTH;
            if (end > chip->d1_end)
                return WRONG_PLACE;
            if (is_locked(record, chip))
                return NOT_ALLOWED;
            store_protected(record, stored_protected(record) + protect_equal(image, image + chip->protection, at, end, data));
            return DONE;
        }
        at += TOP_BIT;
        end += TOP_BIT;
        // fall through
    case D0:
        if (p3 == 0)
            return WRONG_LENGTH;
        if (end > chip->memory)
            return WRONG_PLACE;
        if (chip->page) {
            write_pages(image, at, data, p3, record[PAGE], chip->page);
            return DONE;
        }
        if (at <= chip->counter && end > chip->counter)
            return WRONG_PLACE;
        if (is_locked(record, chip))
            return NOT_ALLOWED;
        return store_unprotected(chip, image, at, end, data) ? DONE : NOT_AS_SENT;
    case C20: {
        if (p3 != chip->code_len)
            return WRONG_LENGTH;
        if (at != 0)
            return WRONG_PLACE;
        uint8_t *counter = image + chip->counter, *code = counter + 1;
        unsigned tries = *counter;
        if (!tries)
            return DONE;
        int equal = code[0] == data[0] && code[1] == data[1] && (p3 == 2 || code[2] == data[2]);
        tries = equal ? chip->full : tries & (tries - 1);
        *counter = (uint8_t)tries;
        record[OPEN] = (uint8_t)equal;
        record[TRIES] = equal ? chip->tries : (uint8_t)(record[TRIES] - 1);
        return DONE | tries;
    }
    default: // D2
        if (p3 != 3)
            return WRONG_LENGTH;
        if (at != 1)
            return WRONG_PLACE;
        if (!record[OPEN])
            return NOT_ALLOWED;
        memcpy(image + 261, data, 3);
        return DONE;
    }
}

// An answer's header, with the data behind it already; byte 9 tells a state other than active in 81h.
static inline int32_t answered(uint8_t *restrict answer, const uint8_t *restrict message, uint8_t type, uint32_t n,
                               unsigned state, unsigned failed, unsigned error) {
    answer[0] = type;
    memcpy(answer + 1, &n, 4);
    answer[5] = message[5];
    answer[6] = message[6];
    answer[7] = (uint8_t)(state | failed);
    answer[8] = (uint8_t)error;
    answer[9] = type == 0x81 && state;
    return (int32_t)(HEADER + n);
}

// The set as it is stored: its bytes, and byte 9 is its protocol number.
static int32_t answered_set(uint8_t *restrict answer, const uint8_t *restrict message, const uint8_t *restrict record) {
    memcpy(answer + HEADER, record + SET, 5);
    if (record[PROTOCOL])
        memcpy(answer + HEADER + 5, record + SET + 5, 2);
    int32_t length = answered(answer, message, 0x82, record[PROTOCOL] ? 7 : 5, !record[ACTIVE], 0, 0);
    answer[9] = record[PROTOCOL];
    return length;
}

int32_t plain_message(uint8_t *restrict record, size_t record_len, uint8_t *restrict image, size_t image_len,
                      const uint8_t *restrict message, size_t message_len, uint8_t *restrict answer,
                      size_t answer_len) {
    if (answer_len < ANSWER_BUFFER)
        return REFUSED_BUFFER;
    if (message_len < HEADER)
        return REFUSED_MESSAGE;
    const struct chip *chip = NULL;
    if (record_len && record[KIND]) {
        chip = chip_of(record[KIND], image, image_len);
        if (!chip)
            return REFUSED_IMAGE;
    }
    if (record_len != RECORD || !is_sound(record, chip, image) || !counts_are_true(record, chip, image))
        return REFUSED_RECORD;

    size_t n = message_len - HEADER;
    uint8_t type = 0x81;
    unsigned error, word, count;
    uint8_t *out = answer + HEADER;
    uint32_t said;
    memcpy(&said, message + 1, 4);
    switch (message[0]) {
    case TRANSFER:
        type = 0x80;
        error = said != n || n > LONGEST_DATA ? 0x01
                : message[5]                  ? 0x05
                : message[8] | message[9]     ? 0x08
                : !record[ACTIVE]             ? 0xfe
                                              : 0;
        if (error)
            break;
        word = command(record, chip, image, message + HEADER, n, out);
        count = word >> 16;
        out[count] = (uint8_t)(word >> 8);
        out[count + 1] = (uint8_t)word;
        return answered(answer, message, 0x80, count + 2, 0, 0, 0);
    case POWER_ON:
        type = 0x80;
        error = said || n ? 0x01 : message[5] ? 0x05 : message[7] > 3 ? 0x07 : !chip ? 0xfe : 0;
        if (error)
            break;
        record[ACTIVE] = 1;
        record[SELECTED] = record[OPEN] = 0;
        set_default(record);
        out[0] = 0x3b;
        out[1] = chip->page ? 0x00 : 0x04;
        if (!chip->page)
            memcpy(out + 2, image, 4);
        return answered(answer, message, 0x80, chip->page ? 2 : 6, 0, 0, 0);
    case POWER_OFF:
    case SLOT_STATUS:
        error = said || n ? 0x01 : message[5] ? 0x05 : 0;
        if (error)
            break;
        if (message[0] == POWER_OFF)
            record[ACTIVE] = record[SELECTED] = record[OPEN] = 0;
        return answered(answer, message, 0x81, 0, !chip ? 2 : !record[ACTIVE], 0, 0);
    case SET_PARAMETERS:
        type = 0x82;
        error = said != n || (n != 5 && n != 7) ? 0x01
                : message[5]                    ? 0x05
                                                : set_fault(message[7], message + HEADER, n);
        if (!error && !chip)
            error = 0xfe;
        if (error)
            break;
        // The seventh byte, NAD, is 00h wherever a set has it.
        record[PROTOCOL] = message[7];
        memcpy(record + SET, message + HEADER, 5);
        record[SET + 5] = n == 7 ? message[HEADER + 5] : 0;
        record[SET + 6] = 0;
        return answered_set(answer, message, record);
    case GET_PARAMETERS:
    case RESET_PARAMETERS:
        type = 0x82;
        error = said || n ? 0x01 : message[5] ? 0x05 : !chip ? 0xfe : 0;
        if (error)
            break;
        if (message[0] == RESET_PARAMETERS)
            set_default(record);
        return answered_set(answer, message, record);
    default:
        error = 0;
    }
    return answered(answer, message, type, 0, message[5] || !chip ? 2 : !record[ACTIVE], 0x40, error);
}

static int32_t keep_empty(uint8_t *record, uint8_t kind) {
    memcpy(record, no_card, RECORD);
    record[KIND] = kind;
    return 0;
}

int32_t plain_insert(uint8_t *record, size_t record_len, uint8_t kind, const uint8_t *image, size_t image_len) {
    if (record_len != RECORD)
        return REFUSED_RECORD;
    if (record[KIND])
        return REFUSED_OCCUPIED;
    const struct chip *chip = chip_of(kind, image, image_len);
    if (!chip)
        return REFUSED_IMAGE;
    keep_empty(record, kind);
    record[TRIES] = (uint8_t)tries_in(chip, image);
    store_protected(record, protected_in(chip, image));
    return 0;
}

int32_t plain_remove(uint8_t *record, size_t record_len) {
    if (record_len != RECORD)
        return REFUSED_RECORD;
    return keep_empty(record, 0);
}
