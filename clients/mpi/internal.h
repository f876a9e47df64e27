/* What the files of the library share. Names begin with `rl_`; none of them is seen outside. */
#ifndef RECLINE_INTERNAL_H
#define RECLINE_INTERNAL_H

#include <mpi.h>
#include <stddef.h>
#include <stdint.h>

enum {
    RL_MOST_RANKS = 256,  /* that recline takes */
    RL_MOST_PATH = 4000,  /* bytes of the path of a checkpoint */
    RL_HEADER_WORDS = 2   /* of 64 bits, which each message has before its payload */
};

/* The name of a message: which of its sender's sends it is, and under which incarnation. */
struct rl_name {
    uint32_t from, incarnation;
    uint64_t number;
};

/* Where the payload of a message is kept, and where it goes: what the body of its note says. */
struct rl_kept {
    uint32_t life;      /* how often the job had been started again when it was sent */
    uint64_t place;     /* in the payload file of that life, in bytes */
    uint64_t length;    /* with the header, in bytes */
    uint64_t community; /* the communicator, below */
    int32_t tag;
    uint64_t digest;    /* of these bytes */
};

/* What is known of this rank. */
struct rl_self {
    int rank, ranks; /* in MPI_COMM_WORLD */
    uint32_t life, incarnation;
    uint64_t sends; /* on the tape so far: the number of the next message */
    int is_begun;
};
extern struct rl_self rl_self;

/* What is known of a communicator: it hangs on it as an attribute. */
struct rl_community {
    uint64_t id;       /* the same on all its members, and in each life */
    uint64_t children; /* communicators that were made of it */
    int rank, size;
    int *world;      /* the rank in MPI_COMM_WORLD of each member */
    MPI_Comm hidden; /* for the messages of collective calls */
    struct rl_community *shown; /* of a hidden one: whose it is, else NULL */
};

/* Where a message goes. */
struct rl_way {
    int to, tag;
    MPI_Comm comm;
};

/* A receive that was posted: where the header comes, and the type that parts it from the rest. */
struct rl_incoming {
    uint64_t header[RL_HEADER_WORDS];
    MPI_Datatype whole;
    MPI_Request request;
    struct rl_incoming *next;
};

/* Says what is wrong on standard error, with the rank, and ends the job with status 3. */
_Noreturn void rl_die(const char *form, ...) __attribute__((format(printf, 1, 2)));
/* Memory, or the end of the job. */
void *rl_room(size_t bytes);

/* files.c: the notes of this rank and the payload of its messages. */
void rl_open_files(const char *folder);
void rl_close_files(void);
void rl_note_send(int to, const struct rl_kept *kept);
void rl_note_receive(struct rl_name name);
void rl_note_checkpoint(const char *path);
void rl_write_notes(void);
char *rl_payload_room(size_t length, uint64_t *place);
void rl_payload_ends(uint64_t end);
void rl_let_payload_go(void);
const char *rl_old_payload(const char *folder, uint32_t life, uint64_t place, uint64_t length);
uint64_t rl_digest(const char *bytes, size_t length);

/* resuming.c: what is to be done after a failure, as it stands in a file for each rank. */
void rl_read_resume(const char *folder);
const char *rl_resumed_path(void);
void rl_send_again(MPI_Comm comm, const struct rl_community *community, uint64_t id);
void rl_look_for_unsent(void);

/* messages.c: sending and receiving with a header. */
int rl_is_message(int count, struct rl_way way);
const void *rl_keep(const void *data, int count, MPI_Datatype type, struct rl_way way,
                    int *length);
int rl_put(const void *data, int count, MPI_Datatype type, struct rl_way way);
int rl_post(const void *data, int count, MPI_Datatype type, struct rl_way way,
            MPI_Request *request);
void rl_expect(struct rl_incoming *in, void *data, int count, MPI_Datatype type);
int rl_posted(int result, struct rl_incoming *in, MPI_Request request);
void rl_finish(struct rl_incoming *in, MPI_Status *status);
int rl_looked(int result, MPI_Status *own, MPI_Status *status);
struct rl_incoming *rl_recall(MPI_Request request);
struct rl_incoming *rl_forget(MPI_Request request);

/* communicators.c */
void rl_open_communicators(void);
void rl_close_communicators(void);
struct rl_community *rl_community_of(MPI_Comm comm);

#endif
