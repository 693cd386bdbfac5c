/* The reader at a serial line, with cards that are files. It is what firmware is: a loop that takes a message from the
 * line, hands it to the library, keeps what the card holds, and sends the answer. ./reader builds and starts it. */
#define _XOPEN_SOURCE 700
#include "card_reader.h"
#include "line.h"
#include "store.h"

#include <errno.h>
#include <poll.h>
#include <stdarg.h>
#include <stdio.h>
#include <stdlib.h>
#include <string.h>
#include <time.h>
#include <unistd.h>

enum { ESCAPE = 0x6B, ESCAPE_ANSWER = 0x83, HEADER = 10, SWAP = 600 };
/* At most 20 bytes: for one of its escape messages libccid has no room for more than 21, and takes 21 for something else. */
static const char version[] = "Card reader 1.0";

/* All that there is: the line, the slot, the card that is in and its file, and whether all is told for ./play's words. */
static struct line line;
static uint8_t record[CARD_READER_RECORD];
static struct store store;
static int traced;

/* Whether a host has spoken since a card went in, and until when the slot is to be empty then, in milliseconds of a clock. */
static int spoken;
static long long empty_until;

static void die(const char *form, ...)
{
    va_list values;
    va_start(values, form);
    fflush(stdout);
    fputs("reader: ", stderr);
    vfprintf(stderr, form, values);
    fputc('\n', stderr);
    va_end(values);
    exit(1);
}

static int has_card(void)
{
    return record[0] != 0;
}

static long long clock_now(void)
{
    struct timespec now;
    clock_gettime(CLOCK_MONOTONIC, &now);
    return now.tv_sec * 1000LL + now.tv_nsec / 1000000;
}

/* ---- what is told with --trace, a line each: docs/HOST.md has the forms */

static void hex(const uint8_t *bytes, size_t count)
{
    putchar(' ');
    if (count == 0)
        putchar('-');
    while (count-- > 0)
        printf("%02x", *bytes++);
}

static void trace(const char *what, const uint8_t *bytes, size_t count)
{
    if (!traced)
        return;
    printf("trace %s", what);
    hex(bytes, count);
}

static void trace_more(const uint8_t *bytes, size_t count)
{
    if (traced)
        hex(bytes, count);
}

static void trace_end(void)
{
    if (traced)
        putchar('\n');
    fflush(stdout);
}

static void trace_changes(void)
{
    size_t i;
    if (traced && has_card() && store_changed(&store))
        for (i = 0; i < store.card.kind->image; i++)
            if (store.card.image[i] != store.kept[i])
                printf(" %04x=%02x", (unsigned)i, store.card.image[i]);
}

/* ---- a message */

/* The answer to an escape message: a version text, and the state that the slot has. */
static int32_t escape(const uint8_t *message, uint8_t *answer)
{
    memset(answer, 0, HEADER);
    answer[0] = ESCAPE_ANSWER;
    answer[1] = sizeof version - 1;
    answer[5] = message[5];
    answer[6] = message[6];
    answer[7] = !has_card() ? 2 : record[1] == 0 ? 1 : 0;
    memcpy(answer + HEADER, version, sizeof version - 1);
    return HEADER + sizeof version - 1;
}

/* Has on the disk what the card holds now. Where that cannot be, there is no answer: the file has the card before the message, or
 * after it where only the folder could not be synced. */
static void keep(void)
{
    char why[5000];
    if (has_card() && store_changed(&store) && store_save(&store, why, sizeof why) != 0)
        die("%s: the card could not be kept, so the message is not answered", why);
}

/* Hands a message to the reader, keeps the card, and answers; an escape message is answered here. */
static void serve(const uint8_t *message, size_t length)
{
    static uint8_t answer[CARD_READER_ROOM];
    int own = length >= HEADER && message[0] == ESCAPE;
    int32_t n = own ? escape(message, answer)
                    : card_reader_message(record, sizeof record, store.card.image, has_card() ? store.card.kind->image : 0,
                                          message, length, answer, sizeof answer);
    trace(own ? "escape" : n < 0 ? "refused" : "message", message, length);
    if (n < 0) {
        if (traced)
            printf(" %d", (int)-n);
        trace_end();
        if (n != CARD_READER_E_MESSAGE)
            die("the reader turned its own slot or card down: %d", (int)-n);
        line_refuse(&line);
        return;
    }
    trace_more(answer, (size_t)n);
    if (!own) {
        trace_more(record, sizeof record);
        trace_changes();
    }
    trace_end();
    spoken = 1;
    keep();
    if (line_send(&line, answer, (size_t)n) != 0)
        puts("the host does not take its answer");
}

/* Waits so long for the line, and for standard input where commands are taken: whether there is something on that. A message that has
 * come is served. */
static int listen(int patience, int commanded)
{
    struct pollfd watched[2] = { { line.near, POLLIN, 0 }, { commanded ? STDIN_FILENO : -1, POLLIN, 0 } };
    int ready = poll(watched, 2, line.count > 0 ? PAUSE : patience);
    size_t length;
    const uint8_t *message;
    if (ready < 0 && errno != EINTR)
        die("poll: %s", strerror(errno));
    if (ready > 0 && watched[0].revents != 0 && line_take(&line) != 0)
        die("%s: %s", line.name, strerror(errno));
    switch (line_arrival(&line, ready == 0)) {
    case MESSAGE:
        message = line_message(&line, &length);
        serve(message, length);
        line_clear(&line);
        break;
    case NO_FRAME:
        trace("frame", line.got, line.count);
        trace_end();
        line_refuse(&line);
        line_clear(&line);
        break;
    case NOTHING_YET:
        break;
    }
    return ready > 0 && watched[1].revents != 0;
}

/* ---- a command */

/* Puts the card of a file in: NULL, or why not. A host that asks for the slot every 0.4 seconds is to see that the last card is out, else it takes the
 * next one for that: so a hand that is faster waits. */
static const char *insert(const char *path)
{
    static char why[5000];
    if (has_card())
        return "a card is in already: remove it first";
    while (clock_now() < empty_until)
        listen((int)(empty_until - clock_now()), 0);
    if (store_open(&store, path, why, sizeof why) != 0)
        return why;
    if (card_reader_insert(record, sizeof record, store.card.kind->number, store.card.image, store.card.kind->image) != 0)
        die("%s: the reader does not take this card", path);
    printf("%s is in: %s\n", store.card.kind->told, store.path);
    if (traced)
        printf("trace in %u", store.card.kind->number);
    trace_more(record, sizeof record);
    trace_more(store.card.image, store.card.kind->image);
    trace_end();
    return NULL;
}

static void take_out(void)
{
    if (has_card()) {
        store_close(&store);
        empty_until = spoken ? clock_now() + SWAP : 0;
        spoken = 0;
    }
    card_reader_remove(record, sizeof record);
}

static void show(void)
{
    char list[400];
    if (!has_card()) {
        puts("no card is in");
        return;
    }
    printf("%s, %s, ", store.card.kind->told, record[1] ? "active" : "inactive");
    printf(record[2] ? "type %02X" : "no type", record[2]);
    printf(", page %u, %s, %s, tries left %u, protected %u", record[3], record[16] ? "chosen" : "not chosen",
           record[4] ? "open" : "closed", card_reader_tries(record), card_reader_protected(record));
    if (card_reader_protected(record) > 0) {
        size_t told = card_protected(&store.card, 0, list, sizeof list);
        printf(": %s%s", list, told < store.card.kind->protectable ? ",.." : "");
    }
    printf(" (%s)\n", store.path);
}

/* Carries a command out; 0 where it was to quit. */
static int command(char *text)
{
    char *word = text + strspn(text, " \t\r"), *rest = word + strcspn(word, " \t\r"), *end = text + strlen(text);
    while (end > rest && strchr(" \t\r", end[-1]) != NULL)
        *--end = '\0';
    if (*rest != '\0')
        *rest++ = '\0';
    rest += strspn(rest, " \t");
    if (strcmp(word, "insert") == 0 && *rest != '\0') {
        const char *why = insert(rest);
        if (why != NULL)
            puts(why);
    } else if (strcmp(word, "remove") == 0 && *rest == '\0') {
        puts(has_card() ? "the card is out" : "no card is in");
        take_out();
        trace("out", record, sizeof record);
        trace_end();
    } else if (strcmp(word, "show") == 0 && *rest == '\0')
        show();
    else if (strcmp(word, "quit") == 0 && *rest == '\0')
        return 0;
    else if (*word != '\0')
        puts("the commands are: insert FILE, remove, show, quit");
    fflush(stdout);
    return 1;
}

/* Takes what stands on standard input, and carries out each line of it; 0 where it ends, or was to quit. */
static int commands(void)
{
    static char typed[5000];
    static size_t count;
    ssize_t came = read(STDIN_FILENO, typed + count, sizeof typed - 1 - count);
    char *from = typed, *end;
    if (came <= 0)
        return came < 0 && (errno == EINTR || errno == EAGAIN);
    count += (size_t)came;
    typed[count] = '\0';
    for (; (end = memchr(from, '\n', count - (size_t)(from - typed))) != NULL; from = end + 1) {
        *end = '\0';
        if (!command(from))
            return 0;
    }
    count -= (size_t)(from - typed);
    memmove(typed, from, count);
    if (count == sizeof typed - 1) {
        puts("the line is too long");
        count = 0;
    }
    return 1;
}

/* ---- the start */

static void tell_start(const char *name)
{
    printf("The reader is at %s. For pcscd, in a file in the folder /etc/reader.conf.d, before it starts:\n\n", name);
    printf("FRIENDLYNAME \"Card reader\"\nDEVICENAME %s:GemPCTwin\n", name);
    printf("LIBPATH /usr/lib/pcsc/drivers/serial/libccidtwin.so\nCHANNELID 0x000001\n\n");
    printf("Commands: insert FILE, remove, show, quit\n");
    fflush(stdout);
}

/* A name for the line that stays the same: a link, in the place of one from before and of nothing else. */
static void link_to_line(const char *name)
{
    char old[sizeof line.name];
    if (readlink(name, old, sizeof old) > 0)
        unlink(name);
    if (symlink(line.name, name) != 0)
        die("%s: %s", name, strerror(errno));
}

int main(int argc, char **argv)
{
    const char *linked = NULL, *refused;
    char why[5000];
    int at = 1;
    if (argc == 4 && strcmp(argv[1], "--new") == 0) {
        const struct kind *kind = kind_named(argv[2]);
        if (kind == NULL)
            die("%s is no kind of card: %s", argv[2], kind_names());
        if (store_new(kind, argv[3], why, sizeof why) != 0)
            die("%s", why);
        printf("%s: a new %s\n", argv[3], kind->told);
        return 0;
    }
    for (; at < argc && strncmp(argv[at], "--", 2) == 0; at++)
        if (strcmp(argv[at], "--trace") == 0)
            traced = 1;
        else if (strcmp(argv[at], "--line") == 0 && at + 1 < argc)
            linked = argv[++at];
        else
            die("%s is no option", argv[at]);
    if (argc - at > 1)
        die("one card goes in at a time");
    take_out();
    if (at < argc && (refused = insert(argv[at])) != NULL)
        die("%s", refused);
    if (line_open(&line) != 0)
        die("no pseudo-terminal: %s", strerror(errno));
    if (linked != NULL)
        link_to_line(linked);
    tell_start(linked != NULL ? linked : line.name);
    while (!listen(-1, 1) || commands())
        continue;
    take_out();
    if (linked != NULL)
        unlink(linked);
    return 0;
}
