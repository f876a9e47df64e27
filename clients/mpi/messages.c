/* Messages with a header. A message carries its name: so the receiver knows it whatever the order
 * in which its receives end, and whoever they were posted for. Header and payload are packed into
 * the payload file, and go out of there; the receiver takes them apart by a type, the payload into
 * the program's own memory.
 */
#include "internal.h"

#include <limits.h>
#include <stdlib.h>
#include <string.h>

enum { BUCKETS = 1024 };
static struct rl_incoming *buckets[BUCKETS]; /* receives that were posted and have not ended */

/* The header of the next message of this rank. */
static void make_header(uint64_t header[RL_HEADER_WORDS])
{
    header[0] = (uint64_t)rl_self.rank << 32 | rl_self.incarnation;
    header[1] = rl_self.sends;
}

static struct rl_name name_in(const uint64_t header[RL_HEADER_WORDS])
{
    return (struct rl_name){(uint32_t)(header[0] >> 32), (uint32_t)header[0], header[1]};
}

/* Bytes that a packed message may take, header and all. */
static int packed_room(int count, MPI_Datatype type, MPI_Comm comm)
{
    MPI_Count size;
    int header, rest;
    PMPI_Type_size_x(type, &size);
    if (size == MPI_UNDEFINED || (size && count > (INT_MAX - 4096) / size))
        rl_die("a message of 2 GiB or more is not supported");
    PMPI_Pack_size(RL_HEADER_WORDS, MPI_UINT64_T, comm, &header);
    PMPI_Pack_size(count, type, comm, &rest);
    return header + rest;
}

/* Keeps a message, and notes that it is sent; returns its bytes, and their number. */
const void *rl_keep(const void *data, int count, MPI_Datatype type, struct rl_way way, int *length)
{
    const struct rl_community *community = rl_community_of(way.comm);
    uint64_t header[RL_HEADER_WORDS];
    struct rl_kept kept = {.life = rl_self.life, .community = community->id, .tag = way.tag};
    int room = packed_room(count, type, way.comm);
    char *bytes = rl_payload_room((size_t)room, &kept.place);
    make_header(header);
    *length = 0;
    PMPI_Pack(header, RL_HEADER_WORDS, MPI_UINT64_T, bytes, room, length, way.comm);
    PMPI_Pack(data, count, type, bytes, room, length, way.comm);
    kept.length = (uint64_t)*length;
    kept.digest = rl_digest(bytes, (size_t)*length);
    rl_payload_ends(kept.place + kept.length);
    rl_note_send(community->world[way.to], &kept);
    rl_self.sends++;
    return bytes;
}

/* What a program sends is no message where MPI will refuse it, or where it goes to nobody. */
int rl_is_message(int count, struct rl_way way)
{
    const struct rl_community *community = rl_community_of(way.comm);
    return count >= 0 && way.tag >= 0 && way.to >= 0 && way.to < community->size;
}

/* Sends, as MPI_Send does. */
int rl_put(const void *data, int count, MPI_Datatype type, struct rl_way way)
{
    int length;
    if (!rl_is_message(count, way))
        return PMPI_Send(data, count, type, way.to, way.tag, way.comm);
    const void *bytes = rl_keep(data, count, type, way, &length);
    return PMPI_Send(bytes, length, MPI_PACKED, way.to, way.tag, way.comm);
}

/* Begins to send, as MPI_Isend does. */
int rl_post(const void *data, int count, MPI_Datatype type, struct rl_way way,
            MPI_Request *request)
{
    int length;
    if (!rl_is_message(count, way))
        return PMPI_Isend(data, count, type, way.to, way.tag, way.comm, request);
    const void *bytes = rl_keep(data, count, type, way, &length);
    return PMPI_Isend(bytes, length, MPI_PACKED, way.to, way.tag, way.comm, request);
}

/* Makes the type by which a message is received: its header, and then the program's memory. It is
 * used with MPI_BOTTOM, and the caller frees it.
 */
void rl_expect(struct rl_incoming *in, void *data, int count, MPI_Datatype type)
{
    int counts[2] = {RL_HEADER_WORDS, count};
    MPI_Aint places[2];
    MPI_Datatype types[2] = {MPI_UINT64_T, type};
    PMPI_Get_address(in->header, &places[0]);
    PMPI_Get_address(data, &places[1]);
    PMPI_Type_create_struct(2, counts, places, types, &in->whole);
    PMPI_Type_commit(&in->whole);
}

/* Takes the header off the number of bytes of a status. */
static void shorten(MPI_Status *status)
{
    MPI_Count bytes;
    const MPI_Count header = RL_HEADER_WORDS * (MPI_Count)sizeof(uint64_t);
    PMPI_Get_elements_x(status, MPI_BYTE, &bytes);
    if (bytes != MPI_UNDEFINED && bytes >= header)
        PMPI_Status_set_elements_x(status, MPI_BYTE, bytes - header);
}

/* A receive has ended well: notes the message, if there is one, and makes the status what it would
 * be without a header.
 */
void rl_finish(struct rl_incoming *in, MPI_Status *status)
{
    int is_cancelled = 0;
    PMPI_Test_cancelled(status, &is_cancelled);
    if (!is_cancelled && status->MPI_SOURCE != MPI_PROC_NULL) {
        rl_note_receive(name_in(in->header));
        shorten(status);
    }
}

/* A message was found that is still to be received: gives the program its status. */
int rl_looked(int result, MPI_Status *own, MPI_Status *status)
{
    if (result == MPI_SUCCESS && own->MPI_SOURCE != MPI_PROC_NULL)
        shorten(own);
    if (status != MPI_STATUS_IGNORE)
        *status = *own;
    return result;
}

/* The receives that were posted, by their requests. */

static struct rl_incoming **bucket_of(MPI_Request request)
{
    uintptr_t key = 0;
    memcpy(&key, &request, sizeof request < sizeof key ? sizeof request : sizeof key);
    return &buckets[(key ^ key >> 6 ^ key >> 16) % BUCKETS];
}

static void remember(struct rl_incoming *in)
{
    struct rl_incoming **bucket = bucket_of(in->request);
    in->next = *bucket;
    *bucket = in;
}

static struct rl_incoming **place_of(MPI_Request request)
{
    struct rl_incoming **at = bucket_of(request);
    while (*at && (*at)->request != request)
        at = &(*at)->next;
    return at;
}

/* A receive was posted: its request is known from now on. */
int rl_posted(int result, struct rl_incoming *in, MPI_Request request)
{
    if (result == MPI_SUCCESS) {
        in->request = request;
        remember(in);
    } else {
        PMPI_Type_free(&in->whole);
        free(in);
    }
    return result;
}

/* The receive of a request, or NULL. */
struct rl_incoming *rl_recall(MPI_Request request)
{
    return request == MPI_REQUEST_NULL ? NULL : *place_of(request);
}

/* The same, and the request is no longer known. */
struct rl_incoming *rl_forget(MPI_Request request)
{
    if (request == MPI_REQUEST_NULL)
        return NULL;
    struct rl_incoming **at = place_of(request), *in = *at;
    if (in)
        *at = in->next;
    return in;
}
