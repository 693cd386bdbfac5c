/* How deep the calls for C go into the stack: stack LIMIT
 *
 * Each call runs on a painted stack of its own. Its depth is what it wrote there, in words of eight bytes: the arguments
 * that are passed on the stack, the return address, and all that the call and what it calls keep below them. The calls are
 * every command on every kind of card in every state of the slot, every fault and every refusal, each with several places,
 * lengths and data; whether they came to all that the rules have, and to nothing else, is held to a table.
 *
 * Prints a line for each function, `NAME DEPTH CALL` with tabs between, its deepest call (of several the first); then the
 * situations that were reached. Exit status: 0; 1 where a function went deeper than LIMIT bytes; 2 where a situation was
 * not reached or one came that the rules do not have. */
#include "card_reader.h"

#include <stdio.h>
#include <string.h>

/* ---- a painted stack */

/* Words are looked at from the deepest watched one up; those below it are there for a call that goes deeper, which is told
 * as one of 2,048 bytes. */
enum { WORDS = 16384, WATCHED = 256 };

static uint64_t stack[WORDS] __attribute__((aligned(16)));
static uint64_t *const watched = stack + WORDS - WATCHED;

static uint64_t paint(size_t word) { return (word + 1) * 0x9e3779b97f4a7c15u; }

/* Calls a function on the stack that ends at `top`, with six arguments in registers and, where `pushed` is not 0, two more
 * on the stack. */
int32_t on_stack(uint64_t *top, void (*function)(void), const uintptr_t *arguments, size_t pushed);
__asm__(".text\n"
        "on_stack:\n"
        "  push %rbp\n"
        "  mov %rsp, %rbp\n"
        "  mov %rdi, %rsp\n"
        "  mov %rsi, %rax\n"
        "  mov %rdx, %r10\n"
        "  test %rcx, %rcx\n"
        "  jz 1f\n"
        "  push 56(%r10)\n"
        "  push 48(%r10)\n"
        "1:\n"
        "  mov (%r10), %rdi\n"
        "  mov 8(%r10), %rsi\n"
        "  mov 16(%r10), %rdx\n"
        "  mov 24(%r10), %rcx\n"
        "  mov 32(%r10), %r8\n"
        "  mov 40(%r10), %r9\n"
        "  call *%rax\n"
        "  mov %rbp, %rsp\n"
        "  pop %rbp\n"
        "  ret\n");

static unsigned long calls;

/* One call: what it returned, and its depth. The stack is painted anew where it was written. */
static int32_t measured(void (*function)(void), const uintptr_t *arguments, size_t pushed, size_t *depth)
{
    int32_t result = on_stack(stack + WORDS, function, arguments, pushed);
    size_t i = 0;
    while (i < WATCHED && watched[i] == paint(i))
        i++;
    *depth = (WATCHED - i) * sizeof stack[0];
    for (; i < WATCHED; i++)
        watched[i] = paint(i);
    calls++;
    return result;
}

/* ---- what a call is: a message of a type, one with a command, any message that is turned down, one on a record with a
 * wrong count or a wrong byte 16, an insertion, a removal */

enum { OTHER, T61, T62, T63, T65, T6C, T6D, T6F, A4, C01, B0, B1, B2, D0, D1, C20, D2 };
enum { MESSAGE = D2 + 1, WRONG_TRIES, WRONG_PROTECTED, WRONG_CHOSEN, INSERTION, REMOVAL, SUBJECTS };

static const uint8_t types[] = { 0x61, 0x62, 0x63, 0x65, 0x6c, 0x6d, 0x6f };
static const uint8_t commands[] = { 0xa4, 0x01, 0xb0, 0xb1, 0xb2, 0xd0, 0xd1, 0x20, 0xd2 };
static const char *const subjects[SUBJECTS] = {
    "another type", "61h", "62h", "63h", "65h", "6Ch", "6Dh", "6Fh",         "A4",           "01",
    "B0",           "B1",  "B2",  "D0",  "D1",  "20",  "D2",  "any message", "tries wrong",  "protected bytes wrong",
    "chosen wrong", "an insertion", "a removal",
};

#define OF(subject) (1u << (subject))
#define ALL_TYPES (OF(T61) | OF(T62) | OF(T63) | OF(T65) | OF(T6C) | OF(T6D) | OF(T6F))
#define SETTING (OF(T61) | OF(T62) | OF(T6C) | OF(T6D))
#define COMMANDS (OF(A4) | OF(C01) | OF(B0) | OF(B1) | OF(B2) | OF(D0) | OF(D1) | OF(C20) | OF(D2))

/* ---- the cards */

/* I2C cards are of type 01h or 02h; I2C_17, of type 02h, has 17 address bits. From BITS_18 on they have protection bits, from
 * CODE_28 on a code too. */
enum { NONE, I2C_01, I2C_02, I2C_17, BITS_18, BITS_32, CODE_28, CODE_42 };
enum { KINDS = 16, LARGEST = 131072 };

static const struct kind {
    const char *name;
    uint8_t number, type;
    size_t image, memory;
    unsigned family;
} kinds[KINDS + 1] = {
    { "no card", 0, 0, 0, 0, NONE },
    { "I2C 1 kbit", CARD_READER_I2C_1K, 1, 128, 128, I2C_01 },
    { "I2C 2 kbit", CARD_READER_I2C_2K, 1, 256, 256, I2C_01 },
    { "I2C 4 kbit", CARD_READER_I2C_4K, 1, 512, 512, I2C_01 },
    { "I2C 8 kbit", CARD_READER_I2C_8K, 1, 1024, 1024, I2C_01 },
    { "I2C 16 kbit", CARD_READER_I2C_16K, 1, 2048, 2048, I2C_01 },
    { "I2C 32 kbit", CARD_READER_I2C_32K, 2, 4096, 4096, I2C_02 },
    { "I2C 64 kbit", CARD_READER_I2C_64K, 2, 8192, 8192, I2C_02 },
    { "I2C 128 kbit", CARD_READER_I2C_128K, 2, 16384, 16384, I2C_02 },
    { "I2C 256 kbit", CARD_READER_I2C_256K, 2, 32768, 32768, I2C_02 },
    { "I2C 512 kbit", CARD_READER_I2C_512K, 2, 65536, 65536, I2C_02 },
    { "I2C 1024 kbit", CARD_READER_I2C_1024K, 2, 131072, 131072, I2C_17 },
    { "SLE4428", CARD_READER_SLE4428, 5, 1152, 1024, CODE_28 },
    { "SLE4418", CARD_READER_SLE4418, 5, 1152, 1024, BITS_18 },
    { "SLE4442", CARD_READER_SLE4442, 6, 264, 256, CODE_42 },
    { "SLE4432", CARD_READER_SLE4432, 6, 264, 256, BITS_32 },
    { "an unknown kind", 0, 0, 128, 128, NONE },
};

/* The commands of a card; its counter's place, a full one, how long its code is, how many protection bytes it has, and a
 * place with a value that no card has there, 0 where every image of the length is a card. */
static const struct {
    unsigned has;
    size_t counter;
    uint8_t full;
    size_t code, protection, spoilt;
    uint8_t spoil;
} families[] = {
    { 0, 0, 0, 0, 0, 0, 0 },
    { OF(A4) | OF(C01) | OF(B0) | OF(D0), 0, 0, 0, 0, 0, 0 },
    { OF(A4) | OF(C01) | OF(B0) | OF(D0), 0, 0, 0, 0, 0, 0 },
    { OF(A4) | OF(C01) | OF(B0) | OF(B1) | OF(D0) | OF(D1), 0, 0, 0, 0, 0, 0 },
    { OF(A4) | OF(B0) | OF(B2) | OF(D0) | OF(D1), 0, 0, 0, 128, 0, 0 },
    { OF(A4) | OF(B0) | OF(B2) | OF(D0) | OF(D1), 0, 0, 0, 4, 263, 0x01 },
    { COMMANDS & ~(OF(C01) | OF(D2)), 0x3fd, 0xff, 2, 128, 1024 + 0x3fd / 8, 0xdf },
    { COMMANDS & ~OF(C01), 260, 0x07, 3, 4, 260, 0x08 },
};

static uint8_t record[CARD_READER_RECORD + 1], image[LARGEST + 1], answer[CARD_READER_ROOM], message[300];

static uint8_t memory_byte(size_t at) { return (uint8_t)(at * 7 + 1); }

/* The image of a card, its code 11 22 33, with this counter and these protection bytes, but that an SLE4428's 3FDh is never
 * protected. Behind the protection bytes of a card without a code all is 00h. */
static void make_card(uint8_t *to, const struct kind *kind, uint8_t counter, uint8_t protection)
{
    size_t i;
    for (i = 0; i < kind->image; i++)
        to[i] = i < kind->memory ? memory_byte(i) : 0;
    if (kind->family < BITS_18)
        return;
    memset(to + kind->memory, protection, families[kind->family].protection);
    if (kind->family < CODE_28)
        return;
    to[families[kind->family].counter] = counter;
    memcpy(to + families[kind->family].counter + 1, "\x11\x22\x33", families[kind->family].code);
    if (kind->family == CODE_28)
        to[1024 + 0x3fd / 8] |= 1 << 0x3fd % 8;
}

static unsigned ones(uint8_t byte)
{
    unsigned n = 0;
    for (; byte; byte = (uint8_t)(byte >> 1))
        n += byte & 1;
    return n;
}

/* The counts of a card, as bytes 13 to 15 of the record have them. */
static void put_counts(uint8_t *counts, const uint8_t *from, const struct kind *kind)
{
    size_t i, count = 0;
    for (i = 0; i < families[kind->family].protection; i++)
        count += 8 - ones(from[kind->memory + i]);
    counts[0] = (uint8_t)(kind->family < CODE_28 ? 0 : ones(from[families[kind->family].counter]));
    counts[1] = (uint8_t)count;
    counts[2] = (uint8_t)(count >> 8);
}

/* ---- situations: on which kind of card, what call, and what came of it */

/* What came: a status word, of which 90xx stands for a code command's 90 with tries left; or one of these. PAGED is 90 00 of
 * an A4 where no page was chosen, with the reader page then. */
enum { DONE = 0, TRIES = 0x90ff, PAGED = 0x10000, FAILED = 0x20000, REFUSED = 0x30000, NO_RESULT = 0x40000 };

enum { IS_NONE = 1 << NONE, IS_01 = 1 << I2C_01, IS_17 = 1 << I2C_17, IS_02 = 1 << I2C_02 | IS_17, IS_42 = 1 << CODE_42 };
enum { IS_I2C = IS_01 | IS_02 };
enum { IS_BITS = 1 << BITS_18 | 1 << BITS_32, IS_CODE = 1 << CODE_28 | IS_42 };
enum { IS_CARD = IS_I2C | IS_BITS | IS_CODE, ANY = IS_NONE | IS_CARD };
/* For a rule about all commands that the card has, or lacks. */
enum { ITS_OWN = 1 << 30, NOT_ITS = 1 << 29 };

/* What the rules have, in their order: the cards, the calls, the outcome. */
static const struct { unsigned cards, subjects, outcome; } rules[] = {
    { ANY, OF(MESSAGE), REFUSED | 1 },
    { ANY, OF(MESSAGE), REFUSED | 2 },
    { IS_CARD, OF(MESSAGE), REFUSED | 3 },
    { ANY, OF(MESSAGE) | OF(WRONG_TRIES) | OF(WRONG_PROTECTED) | OF(WRONG_CHOSEN), REFUSED | 4 },
    { ANY, OF(INSERTION), REFUSED | 4 },
    { ANY, OF(INSERTION), REFUSED | 5 },
    { ANY, OF(INSERTION), REFUSED | 3 },
    { IS_CARD, OF(INSERTION), DONE },
    { IS_NONE, OF(REMOVAL), REFUSED | 4 },
    { IS_NONE, OF(REMOVAL), DONE },
    { ANY, OF(OTHER), FAILED | 0x00 },
    { ANY, ALL_TYPES, FAILED | 0x01 },
    { ANY, ALL_TYPES, FAILED | 0x05 },
    { ANY, OF(T61) | OF(T62), FAILED | 0x07 },
    { ANY, OF(T6F), FAILED | 0x08 },
    { ANY, OF(T61), FAILED | 0x0a },
    { ANY, OF(T61), FAILED | 0x0b },
    { ANY, OF(T61), FAILED | 0x0d },
    { ANY, OF(T61), FAILED | 0x0e },
    { ANY, OF(T61), FAILED | 0x10 },
    { IS_NONE, SETTING | OF(T6F), FAILED | 0xfe },
    { IS_CARD, OF(T6F), FAILED | 0xfe },
    { ANY, OF(T63) | OF(T65), DONE },
    { IS_CARD, SETTING, DONE },
    { IS_CARD, OF(T6F), 0x6700 },
    { IS_CARD, OF(T6F), 0x6e00 },
    { IS_CARD, OF(T6F), 0x6d00 },
    { IS_CARD, COMMANDS & ~OF(A4), 0x6985 },
    { IS_CARD, NOT_ITS, 0x6d00 },
    { IS_CARD, ITS_OWN, 0x6700 },
    { IS_CARD & ~IS_17, ITS_OWN, 0x6b00 },
    /* B0 and D0 name no place past a memory of 17 address bits. */
    { IS_17, OF(A4) | OF(C01) | OF(B1) | OF(D1), 0x6b00 },
    { IS_CARD, OF(A4), 0x6a80 },
    { IS_I2C, OF(C01), 0x6a80 },
    { IS_CODE, OF(D0) | OF(D1), 0x6982 },
    { IS_42, OF(D2), 0x6982 },
    { IS_BITS | IS_CODE, OF(D0), 0x6581 },
    { IS_CARD, ITS_OWN, 0x9000 },
    { IS_01, OF(A4), PAGED | 8 },
    { IS_02, OF(A4), PAGED | 32 },
    { IS_CODE, OF(C20), TRIES },
};
enum { RULES = sizeof rules / sizeof rules[0] };

static unsigned came[RULES][KINDS + 1][SUBJECTS], beside;

/* The one kind of card that messages are sent to; KINDS is every one. */
static size_t only_kind = KINDS;

static int is_asked(size_t kind) { return only_kind == KINDS || only_kind == kind; }

static int allows(size_t rule, size_t kind, size_t subject)
{
    unsigned of;
    if (subject < INSERTION && !is_asked(kind))
        return 0;
    /* An unknown kind is put in and nothing else. */
    if (kind == NONE ? subject == INSERTION : kind == KINDS && subject != INSERTION)
        return 0;
    of = rules[rule].subjects;
    if (of == ITS_OWN)
        of = families[kinds[kind].family].has;
    if (of == NOT_ITS)
        of = COMMANDS & ~families[kinds[kind].family].has;
    return (rules[rule].cards >> kinds[kind].family & 1) && (of >> subject & 1);
}

static void print_outcome(unsigned outcome)
{
    unsigned code = outcome & 0xffff;
    if (outcome >= NO_RESULT)
        puts("what no rule gives");
    else if (outcome >= REFUSED)
        printf("refused, %u\n", code);
    else if (outcome >= FAILED)
        printf("failed, bError %02Xh\n", code);
    else if (outcome >= PAGED)
        printf("90 00 and page %u\n", code);
    else if (code == DONE)
        puts("done");
    else if (code == TRIES)
        puts("90 and tries left");
    else
        printf("%02X %02X\n", code >> 8, code & 0xff);
}

/* Marks a situation. */
static void mark(size_t kind, size_t subject, unsigned outcome)
{
    size_t rule = 0;
    while (rule < RULES && !(rules[rule].outcome == outcome && allows(rule, kind, subject)))
        rule++;
    if (rule < RULES) {
        came[rule][kind][subject]++;
        return;
    }
    if (beside++ == 0) {
        printf("not in the rules: %s, %s: ", kinds[kind].name, subjects[subject]);
        print_outcome(outcome);
    }
}

/* ---- the deepest call of each function */

enum { OF_MESSAGE, OF_INSERT, OF_REMOVE, FUNCTIONS };

/* A call is told by its first bytes: so many of the record, then of the message, or the kind. */
static const struct { const char *name; size_t of_record; const char *then; } functions[FUNCTIONS] = {
    { "card_reader_message", 5, ", message" }, { "card_reader_insert", 1, ", kind" }, { "card_reader_remove", 1, "" },
};
enum { TOLD = 20 };
static struct { size_t depth, kind, count; unsigned outcome; uint8_t told[TOLD]; } deepest[FUNCTIONS];

/* Keeps a call where none of its function went as deep; `then` are the bytes behind those of the record. */
static void keep(size_t function, size_t depth, size_t kind, unsigned outcome, const uint8_t *from, const uint8_t *then, size_t count)
{
    size_t i, first = functions[function].of_record;
    if (depth <= deepest[function].depth)
        return;
    deepest[function].depth = depth;
    deepest[function].kind = kind;
    deepest[function].outcome = outcome;
    deepest[function].count = first + count < TOLD ? first + count : TOLD;
    for (i = 0; i < deepest[function].count; i++)
        deepest[function].told[i] = i < first ? from[i] : then[i - first];
}

/* ---- messages */

/* The state before each message, and what a message is that is turned down. */
static size_t kind_in, down = MESSAGE;
static uint8_t kept_record[CARD_READER_RECORD], kept_image[LARGEST];

static size_t place_in(const uint8_t *values, size_t count, uint8_t value)
{
    size_t i = 0;
    while (i < count && values[i] != value)
        i++;
    return i;
}

/* Whether the reader page, and whether it was chosen, are those of before, or, where the message is a 01 that succeeds, its own. */
static int page_is_right(int chooses)
{
    if (chooses)
        return record[3] == 1u << message[15] && record[16] == 1;
    return record[3] == kept_record[3] && record[16] == kept_record[16];
}

/* What a message of so many bytes came to. */
static unsigned outcome_of(size_t length, int32_t result, size_t *subject)
{
    size_t type = place_in(types, sizeof types, message[0]), command = place_in(commands, sizeof commands, message[11]);
    unsigned word = 0;
    *subject = down;
    if (result < 0)
        return REFUSED | (unsigned)-result;
    /* On a record with a wrong count or byte 16 there is no answer, nor from a card without a code that is said to be open. */
    if (result < 10 || result > CARD_READER_LONGEST || down != MESSAGE || (kept_record[4] && kinds[kind_in].family < CODE_28))
        return NO_RESULT;
    *subject = type < sizeof types ? T61 + type : OTHER;
    if (message[0] == 0x6f && !(answer[7] & 0x40)) {
        if (length >= 15 && message[10] == 0xff && command < sizeof commands)
            *subject = A4 + command;
        word = (unsigned)answer[result - 2] << 8 | answer[result - 1];
    }
    /* An A4 sets the page of an I2C card where none was chosen. */
    if (*subject == A4 && word == 0x9000 && (IS_I2C >> kinds[kind_in].family & 1) && !kept_record[16] && !record[16])
        return PAGED | record[3];
    if (!page_is_right(*subject == C01 && word == 0x9000))
        return NO_RESULT;
    if (answer[7] & 0x40)
        return FAILED | answer[8];
    if (message[0] != 0x6f)
        return DONE;
    /* An open card refuses nothing by 69 82. */
    if (word == 0x6982 && kept_record[4])
        return NO_RESULT;
    return word > 0x9000 && word >> 8 == 0x90 ? TRIES : word;
}

/* One call from the state that is kept, with these lengths. */
static void call(size_t record_length, size_t image_length, size_t length, size_t room)
{
    uintptr_t arguments[8] = { (uintptr_t)record,  record_length, (uintptr_t)image,  image_length,
                               (uintptr_t)message, length,        (uintptr_t)answer, room };
    size_t depth, subject;
    unsigned outcome;
    int32_t result;
    memcpy(record, kept_record, sizeof kept_record);
    result = measured((void (*)(void))card_reader_message, arguments, 1, &depth);
    outcome = outcome_of(length, result, &subject);
    mark(kind_in, subject, outcome);
    keep(OF_MESSAGE, depth, kind_in, outcome, kept_record, message, length);
    /* These alone change the image, and not where they are refused. */
    if (subject >= D0 && subject <= D2 && (outcome >> 8 == 0x90 || outcome == 0x6581))
        memcpy(image, kept_image, kinds[kind_in].image);
}

/* The first so many bytes of the message, to the card that is in. */
static void send(size_t length) { call(CARD_READER_RECORD, kinds[kind_in].image, length, sizeof answer); }

/* The header of a message with n bytes of data. */
static void begin(uint8_t type, size_t n)
{
    memset(message, 0, sizeof message);
    message[0] = type;
    message[1] = (uint8_t)n;
    message[2] = (uint8_t)(n >> 8);
    message[6] = 7;
}

/* Every type; of ours, too, each byte of the header as it is not meant to be, and the longest data. */
static void send_types(void)
{
    static const uint8_t values[] = { 1, 2, 3, 4, 255 };
    unsigned type;
    size_t at, i;
    for (type = 0; type < 256; type++) {
        begin((uint8_t)type, 0);
        send(10);
    }
    for (type = 0; type < sizeof types; type++) {
        begin(types[type], 0);
        send(11);
        for (at = 1; at < 10; at++)
            for (i = 0; i < sizeof values; i++) {
                begin(types[type], 0);
                message[at] = values[i];
                send(10);
            }
    }
    for (i = 261; i <= 262; i++) {
        begin(0x6f, i);
        send(10 + i);
    }
}

static const uint8_t t0_set[8] = { 0, 0x11, 0x00, 0x00, 0x0a, 0x00 };
static const uint8_t t1_set[8] = { 1, 0x95, 0x11, 0xff, 0x9f, 0x03, 0xfe, 0x00 };

/* SetParameters with both sets, and with each byte as no set has it. */
static void send_sets(void)
{
    static const struct { uint8_t at, value; } spoilt[] = {
        { 0, 2 }, { 1, 0x71 }, { 1, 0x10 }, { 2, 0x04 }, { 2, 0x20 }, { 4, 0xa0 }, { 5, 0x04 }, { 7, 0x01 },
    };
    size_t i, n, protocol;
    for (protocol = 0; protocol < 2; protocol++)
        for (n = 5; n <= 7; n++)
            for (i = 0; i <= sizeof spoilt / sizeof spoilt[0]; i++) {
                uint8_t set[8];
                memcpy(set, protocol ? t1_set : t0_set, sizeof set);
                if (i > 0)
                    set[spoilt[i - 1].at] = spoilt[i - 1].value;
                begin(0x61, n);
                message[7] = set[0];
                memcpy(message + 10, set + 1, n);
                send(10 + n);
                message[5] = 1;
                send(10 + n);
            }
}

/* A command and so many bytes behind it: those of the card at that address, each exclusive-or `turned`. */
static void send_command(uint8_t ins, size_t at, size_t p3, size_t brings, uint8_t turned)
{
    size_t i;
    begin(0x6f, 5 + brings);
    message[10] = 0xff;
    message[11] = ins;
    message[12] = (uint8_t)(at >> 8);
    message[13] = (uint8_t)at;
    message[14] = (uint8_t)p3;
    for (i = 0; i < brings; i++)
        message[15 + i] = memory_byte(at + i) ^ turned;
    send(15 + brings);
}

/* What is no command; every command with each length and place, its data the card's own and others, one short, one over. */
static void send_commands(void)
{
    static const size_t lengths[] = { 0, 1, 2, 3, 4, 32, 255 };
    const size_t places[] = { 0, 1, 3, 0x43, 0x3f0, kinds[kind_in].memory - 1, 0xffff };
    size_t c, i, j, n;
    unsigned ins;
    for (n = 0; n < 5; n++) {
        begin(0x6f, n);
        memset(message + 10, 0xff, n);
        send(10 + n);
    }
    for (ins = 0; ins < 256; ins++)
        send_command((uint8_t)ins, 0, 1, 1, 0);
    message[10] = 0;
    send(16);
    for (c = 0; c < sizeof commands; c++)
        for (i = 0; i < sizeof lengths / sizeof lengths[0]; i++) {
            n = commands[c] >> 4 == 0xb ? 0 : lengths[i];
            for (j = 0; j < sizeof places / sizeof places[0]; j++) {
                send_command(commands[c], places[j], lengths[i], n, 0);
                send_command(commands[c], places[j], lengths[i], n, 0x80);
            }
            send_command(commands[c], 0, lengths[i], n + 1, 0);
            if (n > 0)
                send_command(commands[c], 0, lengths[i], n - 1, 0);
        }
}

/* Commands by their data: A4 and 01 with each value, a code card's with the right code and a wrong one. */
static void send_values(void)
{
    size_t n = families[kinds[kind_in].family].code;
    uint8_t value;
    for (value = 0; value < 9; value++) {
        send_command(0xa4, 0, 1, 1, 0);
        message[15] = value;
        send(16);
        message[11] = 0x01;
        send(16);
    }
    for (value = 0; n > 0 && value < 2; value++) {
        send_command(0x20, 0, n, n, 0);
        memcpy(message + 15, "\x11\x22\x33", n);
        message[15] ^= value;
        send(15 + n);
        message[11] = 0xd2;
        message[13] = 1;
        send(15 + n);
    }
}

/* Each byte of the counts one more and one less. */
static void send_miscounted(void)
{
    size_t at, i;
    begin(0x65, 0);
    for (at = 13; at < 16; at++)
        for (i = 0; i < 2; i++) {
            down = at == 13 ? WRONG_TRIES : WRONG_PROTECTED;
            kept_record[at] = (uint8_t)(kept_record[at] + (i ? 255 : 1));
            send(10);
            kept_record[at] = (uint8_t)(kept_record[at] - (i ? 255 : 1));
        }
    down = MESSAGE;
}

/* Byte 16 as no record has it: neither 0 nor 1, or with no card 1. */
static void send_wrongly_chosen(void)
{
    static const uint8_t values[] = { 1, 2, 3, 128, 255 };
    size_t i;
    uint8_t was = kept_record[16];
    begin(0x65, 0);
    down = WRONG_CHOSEN;
    for (i = kind_in != NONE; i < sizeof values; i++) {
        kept_record[16] = values[i];
        send(10);
    }
    kept_record[16] = was;
    down = MESSAGE;
}

/* What is turned down: the length of each slice, an image that is no card, a record with another byte in each place. */
static void send_refused(void)
{
    static const uint8_t values[] = { 0, 1, 2, 5, 6, 8, 10, 11, 16, 20, 21, 30, 31, 128, 255 };
    size_t i, j, size = kinds[kind_in].image, family = kinds[kind_in].family;
    begin(0x65, 0);
    for (i = 0; i < sizeof answer; i += 45)
        call(CARD_READER_RECORD, size, 10, i);
    for (i = 0; i < 10; i++)
        send(i);
    for (i = 0; i <= CARD_READER_RECORD + 1; i++)
        call(i, size, 10, sizeof answer);
    /* The kind alone makes another card of it; with no card in, that is no situation of ours. */
    for (i = kind_in == NONE; i < CARD_READER_RECORD; i++)
        for (j = 0; j < sizeof values; j++) {
            uint8_t was = kept_record[i];
            kept_record[i] = values[j];
            send(10);
            kept_record[i] = was;
        }
    if (kind_in == NONE)
        return;
    call(CARD_READER_RECORD, 0, 10, sizeof answer);
    call(CARD_READER_RECORD, size - 1, 10, sizeof answer);
    call(CARD_READER_RECORD, size + 1, 10, sizeof answer);
    if (families[family].spoil) {
        image[families[family].spoilt] = families[family].spoil;
        send(10);
        image[families[family].spoilt] = kept_image[families[family].spoilt];
    }
}

/* All messages on one state. */
static void send_all(int active, int selected, uint8_t page, int chosen, int open, const uint8_t *set)
{
    memset(kept_record, 0, sizeof kept_record);
    kept_record[0] = kinds[kind_in].number;
    kept_record[1] = (uint8_t)active;
    kept_record[2] = selected ? kinds[kind_in].type : 0;
    kept_record[3] = page;
    kept_record[4] = (uint8_t)open;
    memcpy(kept_record + 5, set, 8);
    put_counts(kept_record + 13, kept_image, &kinds[kind_in]);
    kept_record[16] = (uint8_t)chosen;
    memcpy(image, kept_image, kinds[kind_in].image);
    send_types();
    send_sets();
    send_refused();
    send_miscounted();
    send_wrongly_chosen();
    send_commands();
    send_values();
}

/* The states of the slot with the card that is kept: inactive, no type, selected with each page, chosen or not, open. Of a card
 * without a code that is no state, and every message is turned down. */
static void on_each_state(int open_too)
{
    unsigned page;
    send_all(0, 0, 8, 0, 0, t0_set);
    if (kind_in == NONE)
        return;
    send_all(1, 0, 8, 0, 0, t1_set);
    for (page = 8; page <= 128; page *= kinds[kind_in].family < BITS_18 ? 2 : 16)
        send_all(1, 1, (uint8_t)page, 1, 0, page == 128 ? t1_set : t0_set);
    send_all(1, 1, 64, 0, 0, t0_set);
    if (open_too)
        send_all(1, 1, 8, 0, 1, t0_set);
}

static void every_message(void)
{
    static const uint8_t protections[] = { 0xff, 0x55, 0x00 };
    size_t i;
    for (kind_in = 0; kind_in < KINDS; kind_in++) {
        const struct kind *kind = &kinds[kind_in];
        if (!is_asked(kind_in))
            continue;
        for (i = 0; i < (kind->family < BITS_18 ? 1 : sizeof protections); i++) {
            make_card(kept_image, kind, families[kind->family].full, protections[i]);
            on_each_state(kind->family >= BITS_18);
            /* Two tries, one, none. */
            if (kind->family >= CODE_28) {
                make_card(kept_image, kind, (uint8_t)(3 >> i & 3), protections[i]);
                on_each_state(0);
            }
        }
    }
}

/* ---- insertions and removals */

/* An insertion or a removal that is done leaves page 8, and none chosen. */
static unsigned outcome_of_card(int32_t result)
{
    return result < 0 ? REFUSED | (unsigned)-result : result == 0 && record[3] == 8 && record[16] == 0 ? DONE : NO_RESULT;
}

static void insert(uint8_t in, uint8_t number, size_t row, size_t record_length, size_t image_length)
{
    uintptr_t arguments[8] = { (uintptr_t)record, record_length, number, (uintptr_t)image, image_length, 0, 0, 0 };
    size_t depth;
    unsigned outcome;
    memset(record, 0x5a, sizeof record);
    record[0] = in;
    outcome = outcome_of_card(measured((void (*)(void))card_reader_insert, arguments, 0, &depth));
    mark(row, INSERTION, outcome);
    keep(OF_INSERT, depth, row, outcome, &in, &number, 1);
}

static void every_insertion(void)
{
    unsigned number;
    for (number = 0; number < 256; number++) {
        size_t row = 1, size, family;
        while (row < KINDS && kinds[row].number != number)
            row++;
        size = kinds[row].image;
        family = kinds[row].family;
        make_card(image, &kinds[row], families[family].full, 0x55);
        insert(0, (uint8_t)number, row, CARD_READER_RECORD, size);
        make_card(image, &kinds[row], families[family].full, 0xff);
        insert(0, (uint8_t)number, row, CARD_READER_RECORD, size);
        insert(0, (uint8_t)number, row, CARD_READER_RECORD, size + 1);
        insert(0, (uint8_t)number, row, CARD_READER_RECORD, 0);
        insert(1, (uint8_t)number, row, CARD_READER_RECORD, size);
        insert(255, (uint8_t)number, row, CARD_READER_RECORD, size);
        insert(0, (uint8_t)number, row, CARD_READER_RECORD - 1, size);
        insert(0, (uint8_t)number, row, CARD_READER_RECORD + 1, size);
        insert(0, (uint8_t)number, row, 0, 0);
        if (families[family].spoil) {
            image[families[family].spoilt] = families[family].spoil;
            insert(0, (uint8_t)number, row, CARD_READER_RECORD, size);
        }
    }
}

static void every_removal(void)
{
    unsigned fill, outcome;
    size_t length, depth;
    for (length = 0; length <= CARD_READER_RECORD + 1; length++)
        for (fill = 0; fill < 256; fill++) {
            uintptr_t arguments[8] = { (uintptr_t)record, length, 0, 0, 0, 0, 0, 0 };
            uint8_t byte = (uint8_t)fill;
            memset(record, byte, sizeof record);
            outcome = outcome_of_card(measured((void (*)(void))card_reader_remove, arguments, 0, &depth));
            mark(NONE, REMOVAL, outcome);
            keep(OF_REMOVE, depth, NONE, outcome, &byte, &byte, 0);
        }
}

/* ---- what is printed */

static void print_deepest(void)
{
    size_t f, i;
    for (f = 0; f < FUNCTIONS; f++) {
        printf("%s\t%zu\t%s, record", functions[f].name, deepest[f].depth, kinds[deepest[f].kind].name);
        for (i = 0; i < deepest[f].count; i++)
            printf("%s %02X", i == functions[f].of_record ? functions[f].then : "", deepest[f].told[i]);
        printf(": ");
        print_outcome(deepest[f].outcome);
    }
}

/* Whether all came that the rules have, and nothing else. */
static int all_reached(void)
{
    size_t rule, kind, subject, wanted = 0, reached = 0;
    for (rule = 0; rule < RULES; rule++)
        for (kind = 0; kind <= KINDS; kind++)
            for (subject = 0; subject < SUBJECTS; subject++) {
                if (!allows(rule, kind, subject))
                    continue;
                wanted++;
                if (came[rule][kind][subject] > 0) {
                    reached++;
                    continue;
                }
                printf("not reached: %s, %s: ", kinds[kind].name, subjects[subject]);
                print_outcome(rules[rule].outcome);
            }
    printf("reached %zu of %zu situations in %lu calls\n", reached, wanted, calls);
    return reached == wanted && beside == 0;
}

/* A number, or 100000 where there is none. */
static size_t number_in(const char *digits)
{
    size_t number = 0;
    const char *digit = digits;
    for (; *digit >= '0' && *digit <= '9' && number < 10000; digit++)
        number = number * 10 + (size_t)(*digit - '0');
    return *digit || digit == digits ? 100000 : number;
}

int main(int argc, char **argv)
{
    size_t limit = argc < 2 ? 100000 : number_in(argv[1]), number = argc < 3 ? 0 : number_in(argv[2]), i;
    if (argc > 2)
        for (only_kind = 0; only_kind < KINDS && kinds[only_kind].number != number; only_kind++)
            continue;
    if (argc > 3 || limit == 0 || limit == 100000 || (argc > 2 && only_kind == KINDS)) {
        fprintf(stderr, "usage: stack LIMIT [KIND], the most bytes of stack that a call may take, and the kind of card, 0 for none, that\n"
                   "messages are sent to: every one if not given\n");
        return 2;
    }
    for (i = 0; i < WATCHED; i++)
        watched[i] = paint(i);
    every_message();
    every_insertion();
    every_removal();
    print_deepest();
    if (!all_reached())
        return 2;
    return deepest[OF_MESSAGE].depth > limit || deepest[OF_INSERT].depth > limit || deepest[OF_REMOVE].depth > limit;
}
