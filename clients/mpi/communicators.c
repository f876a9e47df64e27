/* Communicators: each has a number that is the same on all its members and in each life, and a
 * hidden copy for the messages of collective calls. Making a communicator is a collective call that
 * is not noted, so a program makes its communicators anew when it is started again, in the same
 * order, before it goes on from its checkpoint. What is to be sent again on a communicator goes out
 * as it is made, so before anything else that the program sends on it.
 */
#include "internal.h"

#include <stdlib.h>

static const uint64_t WORLD = 1, SELF = 2, HIDDEN = (uint64_t)1 << 63;
static int key = MPI_KEYVAL_INVALID;
static MPI_Comm last = MPI_COMM_NULL; /* that was asked for, and its community */
static struct rl_community *last_community;

/* The number of the next child of a communicator. */
static uint64_t child_of(struct rl_community *parent)
{
    uint64_t words[2] = {parent->id, parent->children++};
    return rl_digest((const char *)words, sizeof words) & ~HIDDEN;
}

/* The communicator is freed, and what hangs on it. */
static int let_go(MPI_Comm comm, int of, void *value, void *extra)
{
    struct rl_community *community = value;
    (void)comm, (void)of, (void)extra;
    last = MPI_COMM_NULL;
    if (!community->shown) {
        PMPI_Comm_free(&community->hidden);
        free(community->world);
    }
    free(community);
    return MPI_SUCCESS;
}

/* The ranks of all members in MPI_COMM_WORLD. */
static int *world_ranks(MPI_Comm comm, int size)
{
    MPI_Group group, world;
    int *ranks = rl_room((size_t)size * sizeof *ranks);
    int *translated = rl_room((size_t)size * sizeof *translated);
    for (int i = 0; i < size; i++)
        ranks[i] = i;
    PMPI_Comm_group(comm, &group);
    PMPI_Comm_group(MPI_COMM_WORLD, &world);
    PMPI_Group_translate_ranks(group, size, ranks, world, translated);
    PMPI_Group_free(&group);
    PMPI_Group_free(&world);
    free(ranks);
    for (int i = 0; i < size; i++)
        if (translated[i] < 0 || translated[i] >= rl_self.ranks)
            rl_die("a communicator has a process that is not in MPI_COMM_WORLD");
    return translated;
}

/* Takes a communicator in, and sends again on it what has to be. */
static void take_in(MPI_Comm comm, uint64_t id)
{
    struct rl_community *community = rl_room(sizeof *community);
    struct rl_community *hidden = rl_room(sizeof *hidden);
    *community = (struct rl_community){.id = id};
    PMPI_Comm_rank(comm, &community->rank);
    PMPI_Comm_size(comm, &community->size);
    community->world = world_ranks(comm, community->size);
    PMPI_Comm_dup(comm, &community->hidden);
    *hidden = *community;
    hidden->id = id | HIDDEN;
    hidden->shown = community;
    PMPI_Comm_set_attr(comm, key, community);
    PMPI_Comm_set_attr(community->hidden, key, hidden);
    rl_send_again(comm, community, community->id);
    rl_send_again(community->hidden, community, hidden->id);
}

void rl_open_communicators(void)
{
    PMPI_Comm_create_keyval(MPI_COMM_NULL_COPY_FN, let_go, &key, NULL);
    take_in(MPI_COMM_WORLD, WORLD);
    take_in(MPI_COMM_SELF, SELF);
}

void rl_close_communicators(void)
{
    PMPI_Comm_delete_attr(MPI_COMM_SELF, key);
    PMPI_Comm_delete_attr(MPI_COMM_WORLD, key);
}

/* What is known of a communicator. */
struct rl_community *rl_community_of(MPI_Comm comm)
{
    int is_there = 0;
    if (!rl_self.is_begun)
        rl_die("a message before MPI_Init or after MPI_Finalize");
    if (comm == last)
        return last_community;
    if (comm != MPI_COMM_NULL)
        PMPI_Comm_get_attr(comm, key, &last_community, &is_there);
    if (!is_there)
        rl_die("a message on a communicator that was made by a call which is not supported");
    last = comm;
    return last_community;
}

/* What a call has made of a communicator. Where this process is no member there is nothing, but it
 * counts, so that the numbers stay the same everywhere.
 */
static int adopt(int result, struct rl_community *parent, const MPI_Comm *made)
{
    if (result == MPI_SUCCESS) {
        uint64_t id = child_of(parent);
        if (*made != MPI_COMM_NULL)
            take_in(*made, id);
    }
    return result;
}

int MPI_Comm_dup(MPI_Comm comm, MPI_Comm *made)
{
    struct rl_community *parent = rl_community_of(comm);
    return adopt(PMPI_Comm_dup(comm, made), parent, made);
}

int MPI_Comm_dup_with_info(MPI_Comm comm, MPI_Info info, MPI_Comm *made)
{
    struct rl_community *parent = rl_community_of(comm);
    return adopt(PMPI_Comm_dup_with_info(comm, info, made), parent, made);
}

int MPI_Comm_split(MPI_Comm comm, int colour, int order, MPI_Comm *made)
{
    struct rl_community *parent = rl_community_of(comm);
    return adopt(PMPI_Comm_split(comm, colour, order, made), parent, made);
}

int MPI_Comm_split_type(MPI_Comm comm, int type, int order, MPI_Info info, MPI_Comm *made)
{
    struct rl_community *parent = rl_community_of(comm);
    return adopt(PMPI_Comm_split_type(comm, type, order, info, made), parent, made);
}

int MPI_Comm_create(MPI_Comm comm, MPI_Group group, MPI_Comm *made)
{
    struct rl_community *parent = rl_community_of(comm);
    return adopt(PMPI_Comm_create(comm, group, made), parent, made);
}

/* Ranks are never put in another order: they have to be the same in each life. */
int MPI_Cart_create(MPI_Comm comm, int dimensions, const int sizes[], const int periods[],
                    int reorder, MPI_Comm *made)
{
    struct rl_community *parent = rl_community_of(comm);
    (void)reorder;
    return adopt(PMPI_Cart_create(comm, dimensions, sizes, periods, 0, made), parent, made);
}

int MPI_Cart_sub(MPI_Comm comm, const int kept[], MPI_Comm *made)
{
    struct rl_community *parent = rl_community_of(comm);
    return adopt(PMPI_Cart_sub(comm, kept, made), parent, made);
}

int MPI_Graph_create(MPI_Comm comm, int nodes, const int index[], const int edges[], int reorder,
                     MPI_Comm *made)
{
    struct rl_community *parent = rl_community_of(comm);
    (void)reorder;
    return adopt(PMPI_Graph_create(comm, nodes, index, edges, 0, made), parent, made);
}

int MPI_Dist_graph_create(MPI_Comm comm, int nodes, const int sources[], const int degrees[],
                          const int destinations[], const int weights[], MPI_Info info, int reorder,
                          MPI_Comm *made)
{
    struct rl_community *parent = rl_community_of(comm);
    (void)reorder;
    return adopt(PMPI_Dist_graph_create(comm, nodes, sources, degrees, destinations, weights, info,
                                        0, made), parent, made);
}

int MPI_Dist_graph_create_adjacent(MPI_Comm comm, int before, const int sources[],
                                   const int source_weights[], int after, const int destinations[],
                                   const int destination_weights[], MPI_Info info, int reorder,
                                   MPI_Comm *made)
{
    struct rl_community *parent = rl_community_of(comm);
    (void)reorder;
    return adopt(PMPI_Dist_graph_create_adjacent(comm, before, sources, source_weights, after,
                                                 destinations, destination_weights, info, 0, made),
                 parent, made);
}
