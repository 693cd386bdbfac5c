/* The serial line: a pseudo-terminal, and the frames on it as libccid's driver for a GemPC Twin has them. */
#ifndef LINE_H
#define LINE_H

#include <stddef.h>
#include <stdint.h>

/* A frame is 03 06, the message, and the exclusive-or of all bytes before. FRAME_MOST holds any message that a host's
 * driver sends; PAUSE is how long, in milliseconds, a line is still when a frame has come to its end. */
enum { FRAME_MOST = 70000, ANSWER_MOST = 271, PAUSE = 200 };

struct line {
    int near, far;              /* our end, and the host's, which is kept open so that the line outlives its hosts */
    char name[64];              /* the host's end */
    uint8_t got[FRAME_MOST];    /* what came since the last frame: all of it, but for what is more than fits */
    size_t count;
};

enum arrival { NOTHING_YET, MESSAGE, NO_FRAME };

/* Opens it: 0, or -1 with errno. */
int line_open(struct line *line);

/* Takes what has come, and echoes it: 0, or -1 with errno. */
int line_take(struct line *line);

/* Whether a frame has come; `still` where nothing came for a PAUSE. A frame is there when it has as many bytes as its
 * dwLength says and its check byte is right. One of another length lies, or is cut: it is what came up to the pause, and
 * the reader is handed it as it came, where the check byte is right. */
enum arrival line_arrival(const struct line *line, int still);

/* The message of a frame. */
const uint8_t *line_message(const struct line *line, size_t *length);

/* What came is done with. */
void line_clear(struct line *line);

/* Sends an answer of at most ANSWER_MOST bytes in a frame, or that no frame was understood: 0, or -1 where the host does
 * not take it. */
int line_send(struct line *line, const uint8_t *answer, size_t length);
int line_refuse(struct line *line);

#endif
