#include "card.h"
#include "card_reader.h"

#include <stdarg.h>
#include <stdio.h>
#include <string.h>

#define I2C(name, told, number, bytes) { name, told, number, bytes, bytes, bytes, 0, 0, 0, 0, 0, { 0xFF, 0xFF, 0xFF, 0xFF } }

static const struct kind kinds[] = {
    I2C("i2c1", "I2C of 1 kbit", CARD_READER_I2C_1K, 128),
    I2C("i2c2", "I2C of 2 kbit", CARD_READER_I2C_2K, 256),
    I2C("i2c4", "I2C of 4 kbit", CARD_READER_I2C_4K, 512),
    I2C("i2c8", "I2C of 8 kbit", CARD_READER_I2C_8K, 1024),
    I2C("i2c16", "I2C of 16 kbit", CARD_READER_I2C_16K, 2048),
    I2C("i2c32", "I2C of 32 kbit", CARD_READER_I2C_32K, 4096),
    I2C("i2c64", "I2C of 64 kbit", CARD_READER_I2C_64K, 8192),
    I2C("i2c128", "I2C of 128 kbit", CARD_READER_I2C_128K, 16384),
    I2C("i2c256", "I2C of 256 kbit", CARD_READER_I2C_256K, 32768),
    I2C("i2c512", "I2C of 512 kbit", CARD_READER_I2C_512K, 65536),
    I2C("i2c1024", "I2C of 1024 kbit", CARD_READER_I2C_1024K, 131072),
    { "sle4428", "SLE4428", CARD_READER_SLE4428, 1152, 1024, 1021, 1024, 0xFF, 0x3FD, 0x3FE, 2, { 0x92, 0x23, 0x10, 0x91 } },
    { "sle4418", "SLE4418", CARD_READER_SLE4418, 1152, 1024, 1024, 1024, 0, 0, 0, 0, { 0x92, 0x23, 0x10, 0x91 } },
    { "sle4442", "SLE4442", CARD_READER_SLE4442, 264, 256, 256, 32, 0x07, 260, 261, 3, { 0xA2, 0x13, 0x10, 0x91 } },
    { "sle4432", "SLE4432", CARD_READER_SLE4432, 264, 256, 256, 32, 0, 0, 0, 0, { 0xA2, 0x13, 0x10, 0x91 } },
};
enum { KINDS = sizeof kinds / sizeof kinds[0], ROW = 16 };

const struct kind *kind_named(const char *name)
{
    size_t i;
    for (i = 0; i < KINDS; i++)
        if (strcmp(kinds[i].name, name) == 0)
            return &kinds[i];
    return NULL;
}

const char *kind_names(void)
{
    static char names[KINDS * 8 + 1];
    size_t i;
    names[0] = '\0';
    for (i = 0; i < KINDS; i++) {
        strcat(names, i > 0 ? " " : "");
        strcat(names, kinds[i].name);
    }
    return names;
}

void card_blank(struct card *card, const struct kind *kind)
{
    size_t bits = kind->protectable / 8;
    card->kind = kind;
    card->head_length = 0;
    memset(card->image, 0xFF, kind->memory + bits);
    memset(card->image + kind->memory + bits, 0x00, kind->image - kind->memory - bits);
    memcpy(card->image, kind->reset, sizeof kind->reset);
    if (kind->full != 0) {
        card->image[kind->counter] = kind->full;
        memset(card->image + kind->code, 0xFF, kind->code_bytes);
    }
}

static int is_protected(const struct card *card, size_t place)
{
    return (card->image[card->kind->memory + place / 8] & 1u << place % 8) == 0;
}

/* ---- reading: a cursor over the text, line by line */

struct reading {
    struct card *card;
    char *line, *word, *next, *end;     /* the line, its next word, the next line, the end of the text */
    size_t number, filled, repeats;     /* the line's number; memory bytes so far; a line `*` above */
    int has_counter, has_code, has_memory;
    char *why;
};

/* Tells a fault: the number of its line, which of an empty text is 1. */
static size_t fault(struct reading *reading, const char *form, ...)
{
    va_list values;
    va_start(values, form);
    vsnprintf(reading->why, WHY_MOST, form, values);
    va_end(values);
    return reading->number > 0 ? reading->number : 1;
}

/* The next line, with its end cut off: what stands behind a `|` is for the eye alone. 0 at the end of the text. */
static int next_line(struct reading *reading)
{
    char *line = reading->next, *end;
    if (line == reading->end)
        return 0;
    reading->number++;
    end = memchr(line, '\n', (size_t)(reading->end - line));
    if (end == NULL)
        end = reading->end;
    reading->next = end == reading->end ? end : end + 1;
    *end = '\0';
    reading->line = reading->word = line;
    return 1;
}

/* The next word of the line, or NULL: it is cut out of the line. */
static char *next_word(struct reading *reading)
{
    char *word = reading->word + strspn(reading->word, " \t\r"), *end;
    if (*word == '\0' || *word == '|')
        return NULL;
    end = word + strcspn(word, " \t\r|");
    if (*end == '|')
        end[1] = '\0';
    reading->word = *end == '\0' ? end : end + 1;
    *end = '\0';
    return word;
}

/* A number of so many hex digits, at least and at most; -1 where the word is none. The rest of it in `rest`, or none may be. */
static long hex(const char *word, size_t least, size_t most, const char **rest)
{
    size_t digits = strspn(word, "0123456789abcdefABCDEF"), i;
    long value = 0;
    if (digits < least || digits > most || (rest == NULL && word[digits] != '\0'))
        return -1;
    for (i = 0; i < digits; i++) {
        char c = word[i];
        value = value * 16 + (c <= '9' ? c - '0' : (c | 0x20) - 'a' + 10);
    }
    if (rest != NULL)
        *rest = word + digits;
    return value;
}

/* All other words of the line as bytes, exactly so many. */
static size_t bytes(struct reading *reading, const char *what, uint8_t *to, size_t count)
{
    size_t i = 0;
    char *word;
    while ((word = next_word(reading)) != NULL) {
        long value = hex(word, 2, 2, NULL);
        if (value < 0)
            return fault(reading, "'%.20s' is no byte of two hex digits", word);
        if (i < count)
            to[i] = (uint8_t)value;
        i++;
    }
    if (i != count)
        return fault(reading, "%s has %u bytes here, and these are %u", what, (unsigned)count, (unsigned)i);
    return 0;
}

/* `0000..0003,0010`, in one word or more. */
static size_t protect(struct reading *reading, const char *list)
{
    struct card *card = reading->card;
    while (*list != '\0') {
        long first = hex(list, 1, 5, &list), last = first;
        if (first >= 0 && strncmp(list, "..", 2) == 0)
            last = hex(list + 2, 1, 5, &list);
        if (first < 0 || last < 0 || (*list != '\0' && *list != ','))
            return fault(reading, "'%.20s' is no list of addresses and ranges, as 0000..0003,0010", list);
        if (last < first || (size_t)last >= card->kind->protectable)
            return fault(reading, "%04lX..%04lX: of %s the bytes 0000..%04X can be protected", first, last, card->kind->told,
                         (unsigned)card->kind->protectable - 1);
        for (; first <= last; first++) {
            if (card->kind->full != 0 && (size_t)first == card->kind->counter)
                return fault(reading, "%04lX is the counter of %s, which cannot be protected", first, card->kind->told);
            card->image[card->kind->memory + (size_t)first / 8] &= (uint8_t)~(1u << first % 8);
        }
        list += *list == ',';
    }
    return 0;
}

/* A line of the dump: the address that is next, and the bytes up to the end of the row or of the memory. */
static size_t dumped(struct reading *reading, const char *word)
{
    struct card *card = reading->card;
    long place = hex(word, 4, 5, NULL);
    size_t end = card->kind->dumped, row, *filled = &reading->filled;
    if (strcmp(word, "*") == 0) {
        if (*filled == 0 || reading->repeats || next_word(reading) != NULL)
            return fault(reading, "'*' alone on a line stands for rows that are as the one above it");
        reading->repeats = 1;
        return 0;
    }
    if (place < 0)
        return fault(reading, "'%.20s' is no address of four or five hex digits", word);
    if (reading->repeats)
        for (; *filled < (size_t)place && *filled + ROW <= end; *filled += ROW)
            memcpy(card->image + *filled, card->image + *filled - ROW, ROW);
    reading->repeats = 0;
    if ((size_t)place >= end)
        return fault(reading, "%04lX is past the last byte of the memory, %04X", place, (unsigned)end - 1);
    if ((size_t)place != *filled)
        return fault(reading, "the address is %04lX, and %04X is next", place, (unsigned)*filled);
    row = end - *filled < ROW ? end - *filled : ROW;
    *filled += row;
    return bytes(reading, "the row", card->image + place, row);
}

/* A line above the memory. */
static size_t named(struct reading *reading, const char *name)
{
    struct card *card = reading->card;
    const struct kind *kind = card->kind;
    char *word;
    if ((strcmp(name, "counter") == 0 || strcmp(name, "code") == 0) && kind->full == 0)
        return fault(reading, "%s has no code and no counter", kind->told);
    if (strcmp(name, "counter") == 0) {
        size_t wrong = reading->has_counter ? fault(reading, "the counter stands twice")
                                            : bytes(reading, "the counter", card->image + kind->counter, 1);
        if (wrong == 0 && card->image[kind->counter] > kind->full)
            return fault(reading, "the counter of %s is at most %02X", kind->told, kind->full);
        reading->has_counter = 1;
        return wrong;
    }
    if (strcmp(name, "code") == 0) {
        if (reading->has_code)
            return fault(reading, "the code stands twice");
        reading->has_code = 1;
        return bytes(reading, "the code", card->image + kind->code, kind->code_bytes);
    }
    if (strcmp(name, "protected") == 0) {
        if (kind->protectable == 0)
            return fault(reading, "%s has no protection bits", kind->told);
        for (word = next_word(reading); word != NULL; word = next_word(reading))
            if (strcmp(word, "none") != 0) {
                size_t wrong = protect(reading, word);
                if (wrong != 0)
                    return wrong;
            }
        return 0;
    }
    if (strcmp(name, "memory") == 0) {
        if (kind->full != 0 && !(reading->has_counter && reading->has_code))
            return fault(reading, "counter and code of %s stand above its memory, and %s is missing", kind->told,
                         reading->has_counter ? "the code" : "the counter");
        if (next_word(reading) != NULL)
            return fault(reading, "'memory' stands alone, and its rows in the lines below");
        reading->has_memory = 1;
        return 0;
    }
    return fault(reading, "'%.20s' is none of counter, code, protected and memory", name);
}

/* The comment lines and the line of the kind. */
static size_t kind_of(struct reading *reading)
{
    struct card *card = reading->card;
    while (next_line(reading)) {
        size_t length = strlen(reading->line);
        if (reading->line[0] == '#') {
            if (card->head_length + length + 1 > HEAD_MOST)
                return fault(reading, "the comment above the card has more than %d bytes", HEAD_MOST);
            memcpy(card->head + card->head_length, reading->line, length);
            card->head_length += length;
            card->head[card->head_length++] = '\n';
        } else {
            char *word = next_word(reading), *name;
            const struct kind *kind;
            size_t head = card->head_length;
            if (word == NULL)
                continue;
            if (strcmp(word, "kind") != 0)
                return fault(reading, "'kind' is the first line of a card, below comments with '#', and this is '%.20s'", word);
            name = next_word(reading);
            kind = name == NULL ? NULL : kind_named(name);
            if (kind == NULL || next_word(reading) != NULL)
                return fault(reading, "the kind is one of: %s", kind_names());
            card_blank(card, kind);
            card->head_length = head;
            return 0;
        }
    }
    return fault(reading, "there is no line with the kind");
}

size_t card_read(struct card *card, char *text, size_t length, char why[WHY_MOST])
{
    struct reading reading = { 0 };
    size_t wrong;
    reading.card = card;
    reading.next = text;
    reading.end = text + length;
    reading.why = why;
    card->head_length = 0;
    if (memchr(text, '\0', length) != NULL)
        return fault(&reading, "this is no text");
    wrong = kind_of(&reading);
    if (wrong != 0)
        return wrong;
    while (next_line(&reading)) {
        char *word = next_word(&reading);
        if (word == NULL)
            continue;
        if (word[0] == '#')
            return fault(&reading, "comments stand above the line with the kind, where they are kept");
        wrong = reading.has_memory ? dumped(&reading, word) : named(&reading, word);
        if (wrong != 0)
            return wrong;
    }
    if (!reading.has_memory)
        return fault(&reading, "the text ends, and there is no memory");
    if (reading.filled != card->kind->dumped)
        return fault(&reading, "the text ends, and the row at %04X is missing", (unsigned)reading.filled);
    return 0;
}

/* ---- writing */

size_t card_protected(const struct card *card, size_t from, char *text, size_t room)
{
    size_t count = card->kind->protectable, length = 0, i = from;
    text[0] = '\0';
    while (i < count) {
        size_t first;
        for (; i < count && !is_protected(card, i); i++)
            continue;
        if (i == count)
            break;
        if (length + sizeof ",0000..0000" > room)
            return i;
        for (first = i; i < count && is_protected(card, i); i++)
            continue;
        length += (size_t)sprintf(text + length, i - first > 1 ? "%s%04X..%04X" : "%s%04X", length > 0 ? "," : "",
                                  (unsigned)first, (unsigned)i - 1);
    }
    if (length == 0 && from == 0)
        strcpy(text, "none");
    return count;
}

static char *write_row(char *to, const struct card *card, size_t place, size_t count)
{
    size_t i;
    to += sprintf(to, card->kind->memory > 65536 ? "%05X " : "%04X ", (unsigned)place);
    for (i = 0; i < ROW; i++)
        if (i < count)
            to += sprintf(to, i == ROW / 2 ? "  %02X" : " %02X", card->image[place + i]);
        else
            to += sprintf(to, i == ROW / 2 ? "    " : "   ");
    to += sprintf(to, "  |");
    for (i = 0; i < count; i++) {
        uint8_t byte = card->image[place + i];
        *to++ = (char)(byte >= ' ' && byte <= '~' ? byte : '.');
    }
    return to + sprintf(to, "|\n");
}

size_t card_write(const struct card *card, char *text)
{
    const struct kind *kind = card->kind;
    size_t place, i;
    int left_out = 0;
    char *to = text, list[72];
    memcpy(to, card->head, card->head_length);
    to += card->head_length;
    to += sprintf(to, "kind       %-12s | %s\n", kind->name, kind->told);
    if (kind->full != 0) {
        unsigned tries = 0, bit;
        for (bit = 0; bit < 8; bit++)
            tries += card->image[kind->counter] >> bit & 1u;
        to += sprintf(to, "counter    %02X           | %u %s left\ncode      ", card->image[kind->counter], tries,
                      tries == 1 ? "try" : "tries");
        for (i = 0; i < kind->code_bytes; i++)
            to += sprintf(to, " %02X", card->image[kind->code + i]);
        to += sprintf(to, "\n");
    }
    for (place = 0; place < kind->protectable;) {
        size_t next = card_protected(card, place, list, sizeof list);
        if (list[0] != '\0')
            to += sprintf(to, "protected  %s\n", list);
        place = next;
    }
    to += sprintf(to, "memory\n");
    for (place = 0; place < kind->dumped; place += ROW) {
        size_t count = kind->dumped - place < ROW ? kind->dumped - place : ROW;
        int last = place + ROW >= kind->dumped;
        if (!last && place > 0 && memcmp(card->image + place, card->image + place - ROW, ROW) == 0) {
            to += left_out ? 0 : sprintf(to, "*\n");
            left_out = 1;
        } else {
            to = write_row(to, card, place, count);
            left_out = 0;
        }
    }
    return (size_t)(to - text);
}
