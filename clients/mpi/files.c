/* The files of a rank: its notes, which are records of `recline collect`, and the payload of the
 * messages that it sent, in a file that is mapped. Both are kept by the system when the rank is
 * killed.
 */
#define _GNU_SOURCE
#include "internal.h"

#include <errno.h>
#include <fcntl.h>
#include <inttypes.h>
#include <stdatomic.h>
#include <stdio.h>
#include <stdlib.h>
#include <string.h>
#include <sys/file.h>
#include <sys/mman.h>
#include <sys/stat.h>
#include <unistd.h>

enum {
    MOST_FILE_NAME = 4096,
    NOTES = 32768, /* bytes of notes that wait; above twice the longest path in hexadecimal */
    ALIGNED = 16,  /* the place of each payload */
    OLD_FILES = 64 /* payload files of earlier lives that one life sends from */
};
static const size_t MOST_PAYLOAD = (size_t)1 << 40, LEAST_PAYLOAD = (size_t)1 << 30;
static const size_t LEAST_STEP = (size_t)1 << 20, MOST_STEP = (size_t)1 << 26;

static int notes_file = -1;
static char notes[NOTES];
static size_t noted;

/* The payload: all of the file that may ever be is mapped at once, so that nothing moves. */
static int payload_file = -1;
static char *payload;
static size_t payload_used, payload_size, payload_most, payload_gone;

/* How far the payload of this life may be let go, in bytes: written from outside. */
static _Atomic uint64_t *let_go;

struct old_file {
    uint32_t life;
    const char *bytes;
    size_t size;
};
static struct old_file old_files[OLD_FILES];
static int old_count;

/* The name of a file of this rank. */
static void name_file(char *name, const char *folder, const char *kind, uint32_t life)
{
    int length = snprintf(name, MOST_FILE_NAME, "%s/%s.%" PRIu32 ".%d", folder, kind, life,
                          rl_self.rank);
    if (length < 0 || length >= MOST_FILE_NAME)
        rl_die("the path of RECLINE_DIR is too long");
}

/* A new file of this rank. It must not be there: it would be of another job. */
static int new_file(const char *folder, const char *kind, int access)
{
    char name[MOST_FILE_NAME];
    name_file(name, folder, kind, rl_self.life);
    int file = open(name, access | O_CREAT | O_EXCL | O_CLOEXEC, 0600);
    if (file < 0)
        rl_die("%s: %s", name, strerror(errno));
    return file;
}

static void open_payload(const char *folder)
{
    void *found = MAP_FAILED;
    payload_file = new_file(folder, "payload", O_RDWR);
    for (payload_most = MOST_PAYLOAD; payload_most >= LEAST_PAYLOAD; payload_most /= 2) {
        found = mmap(NULL, payload_most, PROT_READ | PROT_WRITE, MAP_SHARED | MAP_NORESERVE,
                     payload_file, 0);
        if (found != MAP_FAILED)
            break;
    }
    if (found == MAP_FAILED)
        rl_die("the payload file cannot be mapped: %s", strerror(errno));
    payload = found;
}

static void open_let_go(const char *folder)
{
    int file = new_file(folder, "keep", O_RDWR);
    if (ftruncate(file, sizeof *let_go))
        rl_die("the keep file: %s", strerror(errno));
    void *found = mmap(NULL, sizeof *let_go, PROT_READ, MAP_SHARED, file, 0);
    if (found == MAP_FAILED)
        rl_die("the keep file cannot be mapped: %s", strerror(errno));
    let_go = found;
    close(file);
}

void rl_open_files(const char *folder)
{
    if (mkdir(folder, 0700) && errno != EEXIST)
        rl_die("%s: %s", folder, strerror(errno));
    open_payload(folder);
    open_let_go(folder);
    /* Last: where a rank has a notes file, the others of its life are there too. */
    notes_file = new_file(folder, "notes", O_WRONLY | O_APPEND);
    /* Held until this process ends: whoever plans waits for that, since no note may come later. */
    if (flock(notes_file, LOCK_EX | LOCK_NB))
        rl_die("its notes cannot be locked: %s", strerror(errno));
}

void rl_close_files(void)
{
    rl_write_notes();
    close(notes_file);
    /* A message may still be on its way out of the payload, so it stays mapped. */
    if (ftruncate(payload_file, (off_t)payload_used))
        rl_die("the payload file: %s", strerror(errno));
}

/* Notes. */

void rl_write_notes(void)
{
    size_t done = 0;
    while (done < noted) {
        ssize_t written = write(notes_file, notes + done, noted - done);
        if (written < 0 && errno != EINTR)
            rl_die("its notes cannot be written: %s", strerror(errno));
        if (written > 0)
            done += (size_t)written;
    }
    noted = 0;
}

/* Makes room for a line of so many bytes. */
static void begin_line(size_t bytes)
{
    if (noted + bytes > NOTES)
        rl_write_notes();
}

static void put_text(const char *text)
{
    size_t length = strlen(text);
    memcpy(notes + noted, text, length);
    noted += length;
}

/* A number in digits, after a comma. */
static void put_number(uint64_t number)
{
    char digits[20];
    int at = 20;
    do {
        digits[--at] = (char)('0' + number % 10);
        number /= 10;
    } while (number);
    notes[noted++] = ',';
    memcpy(notes + noted, digits + at, (size_t)(20 - at));
    noted += (size_t)(20 - at);
}

static void put_byte(unsigned byte)
{
    static const char digits[] = "0123456789abcdef";
    notes[noted++] = digits[byte >> 4 & 15];
    notes[noted++] = digits[byte & 15];
}

/* The last bytes of a number, the highest first, in hexadecimal. */
static void put_hexadecimal(uint64_t number, int bytes)
{
    while (bytes--)
        put_byte((unsigned)(number >> (8 * bytes) & 255));
}

/* The beginning of a record: its word, and who does it under which incarnation. */
static void begin_record(const char *word)
{
    put_text(word);
    put_number((uint64_t)rl_self.rank);
    put_number(rl_self.incarnation);
}

/* Written at once: before the message leaves, and with what was received before it. */
void rl_note_send(int to, const struct rl_kept *kept)
{
    begin_line(256);
    begin_record("send");
    put_number((uint64_t)to);
    put_text(",");
    put_hexadecimal(kept->life, 4);
    put_hexadecimal(kept->place, 8);
    put_hexadecimal(kept->length, 8);
    put_hexadecimal(kept->community, 8);
    put_hexadecimal((uint32_t)kept->tag, 4);
    put_hexadecimal(kept->digest, 8);
    put_text("\n");
    rl_write_notes();
}

/* Waits for the next send or checkpoint: nothing has come of the receipt before that. */
void rl_note_receive(struct rl_name name)
{
    begin_line(256);
    begin_record("recv");
    put_number(name.from);
    put_number(name.incarnation);
    put_number(name.number);
    put_text("\n");
}

/* The state is noted as a text: how many messages were sent, and the path of the checkpoint. */
void rl_note_checkpoint(const char *path)
{
    char sends[24];
    begin_line(256 + 2 * RL_MOST_PATH);
    begin_record("check");
    put_text(",");
    snprintf(sends, sizeof sends, "%" PRIu64 " ", rl_self.sends);
    for (const char *at = sends; *at; at++)
        put_byte((unsigned char)*at);
    for (const char *at = path; *at; at++)
        put_byte((unsigned char)*at);
    put_text(",-\n");
    rl_write_notes();
}

/* Payload. */

char *rl_payload_room(size_t length, uint64_t *place)
{
    size_t begin = (payload_used + ALIGNED - 1) / ALIGNED * ALIGNED;
    if (length > payload_most - begin)
        rl_die("its payload file would have more than %zu bytes", payload_most);
    if (begin + length > payload_size) {
        size_t step = payload_size / 2;
        step = step < LEAST_STEP ? LEAST_STEP : step > MOST_STEP ? MOST_STEP : step;
        size_t size = begin + length + step;
        size = size > payload_most ? payload_most : size;
        /* Blocks of the device are taken here, so that a full one is told and not a signal. */
        off_t more = (off_t)(size - payload_size);
        int fault = posix_fallocate(payload_file, (off_t)payload_size, more);
        if (fault)
            rl_die("its payload file cannot grow: %s", strerror(fault));
        payload_size = size;
    }
    *place = begin;
    return payload + begin;
}

/* What was put there ends here. */
void rl_payload_ends(uint64_t end)
{
    payload_used = (size_t)end;
}

/* What stands before the place that was written from outside is let go: a hole in the file. */
void rl_let_payload_go(void)
{
    size_t page = (size_t)sysconf(_SC_PAGESIZE);
    size_t end = (size_t)atomic_load_explicit(let_go, memory_order_relaxed);
    end = (end < payload_used ? end : payload_used) / page * page;
    /* Some file systems make no holes: then nothing is let go before the life ends. */
    if (end >= payload_gone + LEAST_STEP
        && !fallocate(payload_file, FALLOC_FL_PUNCH_HOLE | FALLOC_FL_KEEP_SIZE, (off_t)payload_gone,
                      (off_t)(end - payload_gone)))
        payload_gone = end;
}

/* FNV-1a over words of eight bytes, the last one filled up with zeros, and the length. */
uint64_t rl_digest(const char *bytes, size_t length)
{
    const uint64_t prime = 0x100000001b3u;
    uint64_t digest = 0xcbf29ce484222325u ^ length, word;
    for (; length >= sizeof word; bytes += sizeof word, length -= sizeof word) {
        memcpy(&word, bytes, sizeof word);
        digest = (digest ^ word) * prime;
        digest ^= digest >> 32;
    }
    if (length) {
        word = 0;
        memcpy(&word, bytes, length);
        digest = (digest ^ word) * prime;
        digest ^= digest >> 32;
    }
    return digest;
}

/* The payload file of an earlier life, mapped. */
static const struct old_file *old_file(const char *folder, uint32_t life)
{
    char name[MOST_FILE_NAME];
    struct stat about;
    for (int i = 0; i < old_count; i++)
        if (old_files[i].life == life)
            return &old_files[i];
    if (old_count == OLD_FILES)
        rl_die("messages of more than %d lives are in transit", OLD_FILES);
    name_file(name, folder, "payload", life);
    int file = open(name, O_RDONLY | O_CLOEXEC);
    if (file < 0 || fstat(file, &about))
        rl_die("%s: %s", name, strerror(errno));
    void *found = mmap(NULL, (size_t)about.st_size + 1, PROT_READ, MAP_SHARED, file, 0);
    if (found == MAP_FAILED)
        rl_die("%s cannot be mapped: %s", name, strerror(errno));
    close(file);
    old_files[old_count] = (struct old_file){life, found, (size_t)about.st_size};
    return &old_files[old_count++];
}

const char *rl_old_payload(const char *folder, uint32_t life, uint64_t place, uint64_t length)
{
    const struct old_file *old = old_file(folder, life);
    if (place > old->size || length > old->size - place)
        rl_die("the payload file of life %" PRIu32 " has ended before %" PRIu64 " and %" PRIu64
               " bytes more", life, place, length);
    return old->bytes + place;
}
