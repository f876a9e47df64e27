/* What a rank does after a failure: it reads in its file where it goes on and which of its messages
 * are to be sent again, and sends these before any others.
 *
 *     ranks 4                  of the job
 *     life 2                   the number of this life, from 1
 *     incarnation 2            under which the rank goes on
 *     sends 41                 that it has made before it
 *     checkpoint PATH          from which it goes on; without a path it begins at its beginning
 *     again TO BODY            a message: its receiver, and the body of its note
 *     end
 */
#define _GNU_SOURCE
#include "internal.h"

#include <errno.h>
#include <inttypes.h>
#include <stdio.h>
#include <stdlib.h>
#include <string.h>

enum { MOST_LINE = RL_MOST_PATH + 64 };

struct again {
    struct rl_kept kept;
    int to;
    int is_sent;
};
static struct again *all;
static size_t count, room;
static char *folder_of_lives, *path;
static int is_ended;

/* The next bytes of a body in hexadecimal, the highest first. */
static uint64_t number_at(const char **at, int bytes)
{
    uint64_t number = 0;
    for (int i = 0; i < 2 * bytes; i++, ++*at) {
        const char *digits = "0123456789abcdef", *found = **at ? strchr(digits, **at) : NULL;
        if (!found)
            rl_die("its resume file has a body that is none");
        number = number << 4 | (uint64_t)(found - digits);
    }
    return number;
}

static struct rl_kept kept_in(const char *body)
{
    struct rl_kept kept;
    kept.life = (uint32_t)number_at(&body, 4);
    kept.place = number_at(&body, 8);
    kept.length = number_at(&body, 8);
    kept.community = number_at(&body, 8);
    uint32_t tag = (uint32_t)number_at(&body, 4);
    memcpy(&kept.tag, &tag, sizeof tag);
    kept.digest = number_at(&body, 8);
    return kept;
}

static void add(int to, const char *body)
{
    if (count == room) {
        room = room ? 2 * room : 64;
        all = realloc(all, room * sizeof *all);
        if (!all)
            rl_die("out of memory");
    }
    all[count++] = (struct again){kept_in(body), to, 0};
}

/* What a line of the file says. */
static void read_line(char *line)
{
    uint64_t number;
    int to, begin = 0;
    if (sscanf(line, "ranks %" SCNu64, &number) == 1 && number != (uint64_t)rl_self.ranks)
        rl_die("the job had %" PRIu64 " ranks, and has %d now", number, rl_self.ranks);
    else if (sscanf(line, "life %" SCNu64, &number) == 1)
        rl_self.life = (uint32_t)number;
    else if (sscanf(line, "incarnation %" SCNu64, &number) == 1)
        rl_self.incarnation = (uint32_t)number;
    else if (sscanf(line, "sends %" SCNu64, &number) == 1)
        rl_self.sends = number;
    else if (!strncmp(line, "checkpoint ", 11) && line[11] && !(path = strdup(line + 11)))
        rl_die("out of memory");
    else if (sscanf(line, "again %d %n", &to, &begin) == 1)
        add(to, line + begin);
    else if (!strcmp(line, "end"))
        is_ended = 1;
}

void rl_read_resume(const char *folder)
{
    char line[MOST_LINE], *name;
    if (asprintf(&name, "%s/resume.%d", folder, rl_self.rank) < 0)
        rl_die("out of memory");
    FILE *file = fopen(name, "r");
    if (!file)
        rl_die("%s: %s", name, strerror(errno));
    while (fgets(line, sizeof line, file)) {
        line[strcspn(line, "\n")] = 0;
        read_line(line);
    }
    fclose(file);
    if (!is_ended)
        rl_die("%s has no end", name);
    free(name);
    folder_of_lives = strdup(folder);
    if (!folder_of_lives)
        rl_die("out of memory");
}

const char *rl_resumed_path(void)
{
    return path;
}

/* The rank in a communicator of one in MPI_COMM_WORLD. */
static int member(const struct rl_community *community, int world)
{
    for (int i = 0; i < community->size; i++)
        if (community->world[i] == world)
            return i;
    rl_die("a communicator was made anew without rank %d, to which a message on it is in transit",
           world);
}

/* Sends again what is in transit on a communicator, in the order in which it was sent, under the
 * names that it had. The receiver need not wait for it yet: the bytes stay where they are.
 */
void rl_send_again(MPI_Comm comm, const struct rl_community *community, uint64_t id)
{
    for (size_t i = 0; i < count; i++) {
        const struct rl_kept *kept = &all[i].kept;
        MPI_Request request;
        if (all[i].is_sent || kept->community != id)
            continue;
        const char *bytes = rl_old_payload(folder_of_lives, kept->life, kept->place, kept->length);
        if (rl_digest(bytes, (size_t)kept->length) != kept->digest)
            rl_die("the payload at %" PRIu64 " of life %" PRIu32 " is not what was sent",
                   kept->place, kept->life);
        PMPI_Isend(bytes, (int)kept->length, MPI_PACKED, member(community, all[i].to), kept->tag,
                   comm, &request);
        PMPI_Request_free(&request);
        all[i].is_sent = 1;
    }
}

/* At the end: a message on a communicator that was not made anew has not been sent again. */
void rl_look_for_unsent(void)
{
    size_t unsent = 0;
    for (size_t i = 0; i < count; i++)
        unsent += !all[i].is_sent;
    if (unsent)
        fprintf(stderr, "recline_mpi: rank %d: %zu messages in transit were not sent again: their "
                "communicators were not made anew\n", rl_self.rank, unsent);
}
