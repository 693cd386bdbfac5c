#define _DEFAULT_SOURCE
#define _XOPEN_SOURCE 700
#include "line.h"

#include <errno.h>
#include <fcntl.h>
#include <poll.h>
#include <stdio.h>
#include <stdlib.h>
#include <string.h>
#include <termios.h>
#include <unistd.h>

enum { SYNC = 0x03, ACK = 0x06, NAK = 0x15, HEADER = 10, AROUND = 3, PATIENCE = 2000 };

int line_open(struct line *line)
{
    struct termios form;
    const char *name;
    line->count = 0;
    line->near = posix_openpt(O_RDWR | O_NOCTTY | O_NONBLOCK | O_CLOEXEC);
    if (line->near < 0 || grantpt(line->near) != 0 || unlockpt(line->near) != 0 || (name = ptsname(line->near)) == NULL)
        return -1;
    snprintf(line->name, sizeof line->name, "%s", name);
    line->far = open(line->name, O_RDWR | O_NOCTTY | O_CLOEXEC);
    if (line->far < 0 || tcgetattr(line->far, &form) != 0)
        return -1;
    cfmakeraw(&form);
    return tcsetattr(line->far, TCSANOW, &form);
}

/* Puts bytes on the line: 0, or -1 where nobody takes them for so long. */
static int put(struct line *line, const uint8_t *bytes, size_t length)
{
    while (length > 0) {
        ssize_t count = write(line->near, bytes, length);
        if (count < 0) {
            struct pollfd room = { line->near, POLLOUT, 0 };
            if ((errno != EAGAIN && errno != EINTR) || poll(&room, 1, PATIENCE) == 0)
                return -1;
            continue;
        }
        bytes += count;
        length -= (size_t)count;
    }
    return 0;
}

int line_take(struct line *line)
{
    uint8_t came[4096];
    ssize_t count = read(line->near, came, sizeof came);
    size_t room = sizeof line->got - line->count;
    if (count < 0)
        return errno == EAGAIN || errno == EINTR ? 0 : -1;
    memcpy(line->got + line->count, came, (size_t)count < room ? (size_t)count : room);
    line->count += (size_t)count < room ? (size_t)count : room;
    put(line, came, (size_t)count);
    return 0;
}

static uint8_t check(const uint8_t *bytes, size_t length)
{
    uint8_t sum = 0;
    while (length > 0)
        sum ^= bytes[--length];
    return sum;
}

enum arrival line_arrival(const struct line *line, int still)
{
    const uint8_t *got = line->got;
    size_t count = line->count, said;
    if (count == 0)
        return NOTHING_YET;
    if (!still) {
        if (count < AROUND + HEADER)
            return NOTHING_YET;
        said = got[3] | (size_t)got[4] << 8 | (size_t)got[5] << 16 | (size_t)got[6] << 24;
        if (count != AROUND + HEADER + said)
            return NOTHING_YET;
    }
    if (count >= AROUND && count < FRAME_MOST && got[0] == SYNC && got[1] == ACK && check(got, count) == 0)
        return MESSAGE;
    return still ? NO_FRAME : NOTHING_YET;
}

const uint8_t *line_message(const struct line *line, size_t *length)
{
    *length = line->count - AROUND;
    return line->got + 2;
}

void line_clear(struct line *line)
{
    line->count = 0;
}

int line_send(struct line *line, const uint8_t *answer, size_t length)
{
    uint8_t frame[ANSWER_MOST + AROUND] = { SYNC, ACK };
    memcpy(frame + 2, answer, length);
    frame[2 + length] = check(frame, 2 + length);
    return put(line, frame, length + AROUND);
}

int line_refuse(struct line *line)
{
    static const uint8_t nak[] = { SYNC, NAK, SYNC ^ NAK };
    return put(line, nak, sizeof nak);
}
