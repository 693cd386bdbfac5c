#define _DEFAULT_SOURCE
#define _XOPEN_SOURCE 700
#include "store.h"

#include <errno.h>
#include <fcntl.h>
#include <limits.h>
#include <stdio.h>
#include <stdlib.h>
#include <string.h>
#include <sys/file.h>
#include <sys/stat.h>
#include <unistd.h>

static char text[TEXT_MOST + 1];
static struct card reading;

static int fails(char *why, size_t room, const char *path, const char *what)
{
    snprintf(why, room, "%s: %s", path, what);
    return -1;
}

/* Reads a file whole: its length, or -1. */
static ssize_t read_whole(int file)
{
    size_t length = 0;
    while (length < TEXT_MOST) {
        ssize_t count = read(file, text + length, TEXT_MOST - length);
        if (count < 0)
            return -1;
        if (count == 0)
            return (ssize_t)length;
        length += (size_t)count;
    }
    errno = EFBIG;
    return -1;
}

static int write_whole(int file, size_t length)
{
    size_t done = 0;
    while (done < length) {
        ssize_t count = write(file, text + done, length - done);
        if (count < 0)
            return -1;
        done += (size_t)count;
    }
    return fsync(file);
}

/* Has the folder of a file on the disk, and with it the file's name there. */
static int sync_folder(const char *path)
{
    char folder[PATH_MAX + 2];
    const char *slash = strrchr(path, '/');
    int file, result;
    if (slash == NULL)
        strcpy(folder, ".");
    else
        snprintf(folder, sizeof folder, "%.*s", slash == path ? 1 : (int)(slash - path), path);
    file = open(folder, O_RDONLY | O_DIRECTORY | O_CLOEXEC);
    if (file < 0)
        return -1;
    result = fsync(file);
    close(file);
    return result;
}

int store_open(struct store *store, const char *path, char *why, size_t room)
{
    char whole[PATH_MAX], fault[WHY_MOST];
    struct stat opened, there;
    ssize_t length;
    size_t line;
    int file;
    if (realpath(path, whole) == NULL)
        return fails(why, room, path, strerror(errno));
    if (strlen(whole) + sizeof ".new" > sizeof store->path)
        return fails(why, room, path, strerror(ENAMETOOLONG));
    file = open(whole, O_RDWR | O_CLOEXEC);
    if (file < 0)
        return fails(why, room, path, strerror(errno));
    /* Between opening and locking another reader may have put a new file in its place. */
    if (fstat(file, &opened) != 0 || !S_ISREG(opened.st_mode)) {
        fails(why, room, path, "it is no file of a card");
    } else if (flock(file, LOCK_EX | LOCK_NB) != 0 || stat(whole, &there) != 0 || there.st_ino != opened.st_ino) {
        fails(why, room, path, "another reader has this card");
    } else if ((length = read_whole(file)) < 0) {
        fails(why, room, path, strerror(errno));
    } else if ((line = card_read(&reading, text, (size_t)length, fault)) != 0) {
        snprintf(why, room, "%s, line %u: %s", path, (unsigned)line, fault);
    } else {
        store->card = reading;
        memcpy(store->kept, reading.image, reading.kind->image);
        strcpy(store->path, whole);
        store->file = file;
        return 0;
    }
    close(file);
    return -1;
}

int store_changed(const struct store *store)
{
    return memcmp(store->kept, store->card.image, store->card.kind->image) != 0;
}

int store_save(struct store *store, char *why, size_t room)
{
    char fresh[sizeof store->path];
    struct stat old;
    size_t length = card_write(&store->card, text);
    int file;
    snprintf(fresh, sizeof fresh, "%.*s.new", (int)(sizeof fresh - sizeof ".new"), store->path);
    file = open(fresh, O_WRONLY | O_CREAT | O_TRUNC | O_NOFOLLOW | O_CLOEXEC, 0666);
    if (file < 0)
        return fails(why, room, fresh, strerror(errno));
    if (fstat(store->file, &old) != 0 || fchmod(file, old.st_mode & 07777) != 0 || flock(file, LOCK_EX | LOCK_NB) != 0 ||
        write_whole(file, length) != 0 || rename(fresh, store->path) != 0 || sync_folder(store->path) != 0) {
        fails(why, room, fresh, strerror(errno));
        close(file);
        return -1;
    }
    close(store->file);
    store->file = file;
    memcpy(store->kept, store->card.image, store->card.kind->image);
    return 0;
}

void store_close(struct store *store)
{
    close(store->file);
}

int store_new(const struct kind *kind, const char *path, char *why, size_t room)
{
    int file = open(path, O_WRONLY | O_CREAT | O_EXCL | O_CLOEXEC, 0666);
    if (file < 0)
        return fails(why, room, path, errno == EEXIST ? "it is there already" : strerror(errno));
    card_blank(&reading, kind);
    reading.head_length = (size_t)sprintf(reading.head, "# Take the card out of the reader before you edit this file: docs/HOST.md has its form.\n");
    if (write_whole(file, card_write(&reading, text)) != 0 || sync_folder(path) != 0) {
        fails(why, room, path, strerror(errno));
        close(file);
        unlink(path);
        return -1;
    }
    close(file);
    return 0;
}
