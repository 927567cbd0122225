/* Sends lists of commands to an NVMe/TCP controller, each by an I/O queue of its own, and writes the trace of what came back. `nvq trace` and `nvq certify`
   judge traces.

       gcc -O2 -pthread -I include -o zalkvorn-host clients/nvme-tcp/host.c clients/nvme-tcp/controller.c clients/nvme-tcp/queue.c clients/nvme-tcp/list.c clients/nvme-tcp/pdu.c
       ./nvq generate --deallocate 0 out/1.list out/2.list
       ./zalkvorn-host --overwrite --fill --out out/seen.txt 127.0.0.1:4420 out/1.list out/2.list
       ./zalkvorn-host --help

   A list's number, from 1, is the trace's host. The times are CLOCK_MONOTONIC in nanoseconds: before the first byte of a command was sent, and after the last that came of it
   was read. What wasn't answered until the timeout, or before its connection ended, never ended in the trace. */
#include <ctype.h>
#include <errno.h>
#include <getopt.h>
#include <inttypes.h>
#include <netdb.h>
#include <pthread.h>
#include <stdarg.h>
#include <stdio.h>
#include <stdlib.h>
#include <sys/socket.h>

#include "controller.h"
#include "list.h"

/* Limits of a trace's namespace and of its hosts; and of a queue. */
enum { MOST_BLOCKS = 65536, MOST_UNITS = 4096, MOST_QUEUES = 64, MOST_DEPTH = 1024, STATUSES = 0x800, FAULT_ROOM = 400 };

static struct {
    const char *out, *address, *reads;
    struct connecting connecting;
    uint64_t first, blocks;
    uint32_t namespace_id;
    unsigned depths[MOST_QUEUES], depth_count;
    int nabsn, nabo, nawun, nacwu; /* -1 where the device's stands */
    bool identifies, overwrites, fills, has_controllers;
} asked = {
    .reads = "atomic", .namespace_id = 1, .depths = {8}, .depth_count = 1, .nabsn = -1, .nabo = -1, .nawun = -1, .nacwu = -1,
    .connecting = {.subsystem = DEFAULT_SUBSYSTEM, .host = "nqn.2014-08.org.nvmexpress:uuid:7a616c6b-766f-726e-8000-6e766d652f74", .seconds = 20,
                   .host_id = {0x7a, 0x61, 0x6c, 0x6b, 0x76, 0x6f, 0x72, 0x6e, 0x80, 0x00, 0x6e, 0x76, 0x6d, 0x65, 0x2f, 0x74}},
};

/* A list, the queue that sends it, and what it saw. */
struct host {
    unsigned number; /* from 1 */
    pthread_t thread;
    struct list list;
    struct queue *queue;
    char *trace; /* its lines of the trace */
    size_t trace_length;
    uint32_t statuses[STATUSES], sent, unended, short_reads;
    bool has_memory;
};

static struct host hosts[MOST_QUEUES];
static struct controller controllers[MOST_QUEUES];
static unsigned host_count, controller_count;
static struct window window;
static pthread_barrier_t together;

static const char USAGE[] =
    "zalkvorn-host --out TRACE [OPTION..] ADDRESS LIST..\n"
    "zalkvorn-host --identify [OPTION..] ADDRESS\n"
    "\n"
    "Sends lists of commands to an NVMe/TCP controller, each by an I/O queue of its own, up to 64, and\n"
    "writes the trace of what came back as text. ADDRESS is HOST:PORT, or [HOST]:PORT for IPv6.\n"
    "\n"
    "  --out TRACE         where the trace goes; - is standard output\n"
    "  --identify          prints what the device is like, a name and its value a line\n"
    "  --nqn NQN           the subsystem (" DEFAULT_SUBSYSTEM ")\n"
    "  --host-nqn NQN      what this host calls itself\n"
    "  --nsid N            the namespace (1): lists call it 1\n"
    "  --overwrite         the blocks of the window may be overwritten; without it nothing is\n"
    "  --fill              zeroes are written to the window first, so that bugs can be told\n"
    "  --first LBA         where the window begins on the device (0): lists call it LBA 0\n"
    "  --nsze N            how many blocks the window has, 1 to 65536 (as far as the lists go)\n"
    "  --depth N[,N..]     how many commands of each list are under way at a time, 1 to 1024 (8); the last\n"
    "                      number is that of all lists behind it, too\n"
    "  --controllers       each list has a controller of its own, and not only a queue\n"
    "  --reads WORD        what a Read is held to: atomic, which is the standard's, whole or by-blocks (atomic)\n"
    "  --header-digest     header digests are asked for; --data-digest: data digests\n"
    "  --nabsn N  --nabo N  --nawun N  --nacwu N    what the trace is judged by, if not what the device says\n"
    "  --timeout SECONDS   after that without an answer a queue is given up (20)\n"
    "\n"
    "Exit status: 0 where each command ended, 2 where the trace was written and some didn't, else 1.\n";

static void fail(const char *told, ...) __attribute__((noreturn, format(printf, 1, 2)));

/* Says what is wrong, and ends. */
static void fail(const char *told, ...)
{
    va_list more;
    va_start(more, told);
    fprintf(stderr, "zalkvorn-host: ");
    vfprintf(stderr, told, more);
    fprintf(stderr, "\n");
    va_end(more);
    exit(1);
}

/* ---- what a queue sees ---- */

/* Prints data as runs of equal bytes, the longest ones. */
static void print_runs(FILE *out, const uint8_t *data, uint32_t length)
{
    for (uint32_t at = 0, end; at < length; at = end) {
        for (end = at + 1; end < length && data[end] == data[at]; end++) {
            continue;
        }
        fprintf(out, "%c%" PRIu32 "*%02x", at ? ',' : ' ', end - at, data[at]);
    }
}

/* Prints the line of a command, or of a pair, which is given by its first. */
static void print_seen(FILE *out, struct host *host, const struct request *request)
{
    const struct command *command = request->of;
    const struct request *second = request->partner;
    bool has_ended = request->is_done && (!second || second->is_done);
    uint64_t ended = second && second->ended > request->ended ? second->ended : request->ended;
    fprintf(out, "%" PRIu64, request->began);
    fprintf(out, has_ended ? " %" PRIu64 : " -", ended);
    fprintf(out, " %u %u %s", host->number, command->cid, command->text);
    if (second) {
        fprintf(out, " + %u %s", command[1].cid, command[1].text);
    }
    if (has_ended) {
        fprintf(out, " =");
        for (const struct request *it = request; it; it = it == second ? NULL : second) {
            fprintf(out, " %u/%02x", it->status >> 8, it->status & 255);
            host->statuses[it->status]++;
        }
        if (command->entry[0] == READ && !second && request->status == 0) {
            bool is_whole = request->moved == request->length;
            host->short_reads += !is_whole;
            if (is_whole) {
                print_runs(out, request->data, request->length);
            }
        }
    } else {
        host->unended += second ? 2 : 1;
    }
    fprintf(out, "\n");
}

/* Hands a command to the queue, or gives NULL where memory is refused. */
static struct request *issue(struct host *host, const struct command *command)
{
    uint8_t *data = command->length ? malloc(command->length) : NULL;
    if (command->length && !data) {
        return NULL;
    }
    if (command->data) {
        command_data(command, &window, data);
    }
    struct request *request = queue_submit(host->queue, command->entry, data, command->length);
    if (!request) {
        free(data);
        return NULL;
    }
    request->of = command;
    host->sent++;
    return request;
}

/* Whether the queue has room for a command, with its pair's second, and no other has its CID. */
static bool fits(const struct host *host, const struct command *command)
{
    const struct queue *queue = host->queue;
    return queue_takes(queue, command->cid) && (!command->is_paired || (queue->used + 1 < queue->depth && queue_takes(queue, command[1].cid)));
}

/* Hands over what fits, and gives the place behind it. A pair's two capsules are neighbours on the wire. */
static size_t issue_all(struct host *host, size_t next)
{
    while (host->has_memory && next < host->list.count && fits(host, &host->list.commands[next])) {
        const struct command *command = &host->list.commands[next++];
        struct request *request = issue(host, command), *second = NULL;
        host->has_memory = request != NULL;
        if (request && command->is_paired) {
            second = issue(host, &host->list.commands[next++]);
            host->has_memory = second != NULL;
            request->partner = second;
        }
        if (second) {
            second->partner = request;
        }
    }
    return next;
}

/* Whether this request is the second of a pair: its line is that of the first. */
static bool is_second(const struct request *request)
{
    return request->partner && (const struct command *)request->of > (const struct command *)request->partner->of;
}

static void release(struct queue *queue, struct request *request)
{
    free(request->data);
    queue_release(queue, request);
}

/* Prints and gives back what is done, and all that is under way where the queue is `over`. */
static void print_done(FILE *out, struct host *host, bool over)
{
    struct queue *queue = host->queue;
    for (struct request *request = queue->requests; request < queue->requests + queue->depth; request++) {
        struct request *second = request->is_used ? request->partner : NULL;
        bool is_done = request->is_done && (!second || second->is_done);
        if (!request->is_used || is_second(request) || !(is_done || over)) {
            continue;
        }
        print_seen(out, host, request);
        if (second) {
            release(queue, second);
        }
        release(queue, request);
    }
}

static void *work(void *given)
{
    struct host *host = given;
    FILE *out = open_memstream(&host->trace, &host->trace_length);
    pthread_barrier_wait(&together);
    bool is_good = out != NULL;
    host->has_memory = is_good;
    for (size_t next = 0; is_good;) {
        next = issue_all(host, next);
        if (!host->queue->used) {
            break;
        }
        is_good = queue_turn(host->queue);
        print_done(out, host, !is_good);
    }
    if (out && fclose(out) != 0) {
        host->has_memory = false;
    }
    return NULL;
}

/* ---- the window and the trace ---- */

/* Writes zeroes to the window. */
static void fill(struct queue *queue)
{
    uint32_t most = 65536 > window.block ? 65536 / window.block : 1, longest = window.most / window.block, part = most < longest ? most : longest;
    uint8_t entry[ZK_ENTRY_BYTES] = {WRITE}, *zeroes = calloc(part ? part : 1, window.block);
    if (!zeroes || !part) {
        fail("no memory");
    }
    put_little(entry + 4, 4, window.namespace_id);
    for (uint64_t at = 0; at < window.blocks; at += part) {
        uint64_t count = window.blocks - at < part ? window.blocks - at : part;
        put_little(entry + 40, 8, window.first + at);
        put_little(entry + 48, 2, count - 1);
        int status = queue_do(queue, entry, zeroes, (uint32_t)(count * window.block), NULL);
        if (status < 0) {
            fail("the window can't be filled: %s", queue->fault);
        }
        if (status > 0) {
            fail("the device answers a Write of zeroes to %" PRIu64 " blocks at LBA %" PRIu64 " with %d/%02x", count, window.first + at, status >> 8, (unsigned)status & 255);
        }
    }
    free(zeroes);
}

/* The numbers of the trace's head: what the device says, or the words do. */
static struct head judged_by(struct identified it)
{
    const struct {
        int asked;
        uint32_t *said;
    } each[] = {{asked.nabsn, &it.nabsn}, {asked.nabo, &it.nabo}, {asked.nawun, &it.nawun}, {asked.nacwu, &it.nacwu}};
    for (size_t place = 0; place < sizeof each / sizeof *each; place++) {
        if (each[place].asked >= 0) {
            *each[place].said = (uint32_t)each[place].asked;
        }
    }
    struct head head = head_of(&it, window.first, (uint32_t)window.blocks);
    if (head.units > MOST_UNITS) {
        fail("the window has %" PRIu32 " atomic units, and a trace at most %d: --nsze makes it smaller", head.units, MOST_UNITS);
    }
    if (head.nawun != it.nawun || head.nacwu != it.nacwu) {
        fprintf(stderr, "zalkvorn-host: note: NAWUN %" PRIu32 " and NACWU %" PRIu32 " are %" PRIu32 " and %" PRIu32 " in the trace, since NABSN is %" PRIu32 "\n", it.nawun, it.nacwu, head.nawun, head.nacwu, head.nabsn);
    }
    return head;
}

static void print_trace(FILE *out, const struct head *by, const char *deallocated)
{
    fprintf(out, "trace nsze %" PRIu64 " block %" PRIu32 " nabsn %" PRIu32 " nabo %" PRIu32 " nawun %" PRIu32 " nacwu %" PRIu32 " first %" PRIu64 " start %s reads %s%s\n", window.blocks, window.block,
            by->nabsn, by->nabo, by->nawun, by->nacwu, window.first, asked.fills ? "zeroes" : "unknown", asked.reads, deallocated);
    for (struct host *host = hosts; host < hosts + host_count; host++) {
        fwrite(host->trace, 1, host->trace_length, out);
    }
    if (fflush(out) != 0 || ferror(out) || (out != stdout && fclose(out) != 0)) {
        fail("%s can't be written: %s", asked.out, strerror(errno));
    }
}

/* Says what came back, and gives how many commands never ended. */
static uint32_t summary(double seconds)
{
    uint32_t sent = 0, unended = 0, unsent = 0, short_reads = 0, statuses[STATUSES] = {0};
    for (struct host *host = hosts; host < hosts + host_count; host++) {
        sent += host->sent;
        unended += host->unended;
        unsent += (uint32_t)host->list.count - host->sent;
        short_reads += host->short_reads;
        for (unsigned status = 0; status < STATUSES; status++) {
            statuses[status] += host->statuses[status];
        }
        if (*host->queue->fault || !host->has_memory) {
            fprintf(stderr, "zalkvorn-host: list %u: %s\n", host->number, *host->queue->fault ? host->queue->fault : "no memory");
        }
    }
    fprintf(stderr, "zalkvorn-host: %" PRIu32 " commands by %u queues in %.3f s:", sent, host_count, seconds);
    for (unsigned status = 0; status < STATUSES; status++) {
        if (statuses[status]) {
            fprintf(stderr, " %" PRIu32 " of %u/%02x,", statuses[status], status >> 8, status & 255);
        }
    }
    fprintf(stderr, " %" PRIu32 " never ended, %" PRIu32 " not sent, %" PRIu32 " Reads succeeded without their data\n", unended, unsent, short_reads);
    return unended + unsent;
}

/* ---- words ---- */

static uint64_t number(const char *option, const char *text, uint64_t least, uint64_t most)
{
    char *end;
    errno = 0;
    uint64_t value = strtoull(text, &end, 10);
    if (!isdigit((unsigned char)*text) || *end || errno || value < least || value > most) {
        fail("--%s is %" PRIu64 " to %" PRIu64 ", not %s", option, least, most, text);
    }
    return value;
}

static const char *nqn(const char *option, const char *text)
{
    if (!*text || strlen(text) >= NQN_BYTES) {
        fail("--%s has 1 to %d bytes", option, NQN_BYTES - 1);
    }
    return text;
}

static void read_depths(char *text)
{
    asked.depth_count = 0;
    for (char *rest = text, *one; (one = strtok_r(rest, ",", &rest)) != NULL;) {
        if (asked.depth_count == MOST_QUEUES) {
            fail("--depth has a number for each of at most %d lists", MOST_QUEUES);
        }
        asked.depths[asked.depth_count++] = (unsigned)number("depth", one, 1, MOST_DEPTH);
    }
    if (!asked.depth_count) {
        fail("--depth is 1 to %d", MOST_DEPTH);
    }
}

/* Looks the address up. */
static void resolve(const char *address)
{
    char host[300], *colon;
    const char *port = "4420";
    if (snprintf(host, sizeof host, "%s", address) >= (int)sizeof host) {
        fail("%s is no address", address);
    }
    char *name = host, *bracket = *host == '[' ? strchr(host, ']') : NULL;
    colon = bracket ? (bracket[1] == ':' ? bracket + 1 : NULL) : strrchr(host, ':');
    if (bracket) {
        name = host + 1;
        *bracket = 0;
    }
    if (colon) {
        *colon = 0;
        port = colon + 1;
    }
    struct addrinfo hints = {.ai_family = AF_UNSPEC, .ai_socktype = SOCK_STREAM}, *found;
    int error = getaddrinfo(name, port, &hints, &found);
    if (error) {
        fail("%s is no address: %s", address, gai_strerror(error));
    }
    asked.connecting.addresses = found;
}

static void read_words(int words, char **word)
{
    static const struct option options[] = {
        {"out", required_argument, NULL, 'o'},         {"identify", no_argument, NULL, 'i'},      {"nqn", required_argument, NULL, 'q'},
        {"host-nqn", required_argument, NULL, 'Q'},    {"nsid", required_argument, NULL, 'n'},    {"overwrite", no_argument, NULL, 'w'},
        {"fill", no_argument, NULL, 'z'},              {"first", required_argument, NULL, 'f'},   {"nsze", required_argument, NULL, 's'},
        {"depth", required_argument, NULL, 'd'},       {"controllers", no_argument, NULL, 'c'},   {"reads", required_argument, NULL, 'r'},
        {"header-digest", no_argument, NULL, 'H'},     {"data-digest", no_argument, NULL, 'D'},   {"nabsn", required_argument, NULL, 'B'},
        {"nabo", required_argument, NULL, 'O'},        {"nawun", required_argument, NULL, 'W'},   {"nacwu", required_argument, NULL, 'C'},
        {"timeout", required_argument, NULL, 'T'},     {"help", no_argument, NULL, 'h'},          {NULL, 0, NULL, 0},
    };
    for (int option, place = 0; (option = getopt_long(words, word, "h", options, &place)) != -1;) {
        const char *name = option == '?' ? "" : options[place].name;
        switch (option) {
        case 'o': asked.out = optarg; break;
        case 'i': asked.identifies = true; break;
        case 'q': asked.connecting.subsystem = nqn(name, optarg); break;
        case 'Q': asked.connecting.host = nqn(name, optarg); break;
        case 'n': asked.namespace_id = (uint32_t)number(name, optarg, 1, UINT32_MAX - 1); break;
        case 'w': asked.overwrites = true; break;
        case 'z': asked.fills = true; break;
        case 'f': asked.first = number(name, optarg, 0, UINT64_MAX); break;
        case 's': asked.blocks = number(name, optarg, 1, MOST_BLOCKS); break;
        case 'd': read_depths(optarg); break;
        case 'c': asked.has_controllers = true; break;
        case 'r':
            if (strcmp(optarg, "atomic") != 0 && strcmp(optarg, "whole") != 0 && strcmp(optarg, "by-blocks") != 0) {
                fail("--reads is atomic, whole or by-blocks, not %s", optarg);
            }
            asked.reads = optarg;
            break;
        case 'H': asked.connecting.header_digest = true; break;
        case 'D': asked.connecting.data_digest = true; break;
        case 'B': asked.nabsn = (int)number(name, optarg, 0, 65535); break;
        case 'O': asked.nabo = (int)number(name, optarg, 0, 65535); break;
        case 'W': asked.nawun = (int)number(name, optarg, 0, 65535); break;
        case 'C': asked.nacwu = (int)number(name, optarg, 0, 65535); break;
        case 'T': asked.connecting.seconds = (unsigned)number(name, optarg, 1, 86400); break;
        case 'h':
            if (fputs(USAGE, stdout) < 0 || fflush(stdout) != 0) {
                fail("standard output can't be written");
            }
            exit(0);
        default: fail("--help tells which options there are");
        }
    }
    int rest = words - optind;
    if (rest < 1 || asked.identifies != (rest == 1) || asked.identifies == (asked.out != NULL)) {
        fail("an address and lists with --out, or an address with --identify: --help tells more");
    }
    if (rest - 1 > MOST_QUEUES) {
        fail("there are at most %d lists", MOST_QUEUES);
    }
    asked.address = word[optind];
    host_count = (unsigned)rest - 1;
}

/* ---- all together ---- */

/* Prints what the device is like, for scripts. */
static void print_identity(const struct identity *it)
{
    printf("model %s\nblocks %" PRIu64 "\nblock %" PRIu32 "\nmost %" PRIu32 "\nqueues %" PRIu32 "\nentries %" PRIu32 "\n", it->model, it->space.blocks, it->block, it->most, it->queues, it->entries);
    printf("nabsn %" PRIu32 "\nnabo %" PRIu32 "\nnawun %" PRIu32 "\nnacwu %" PRIu32 "\n", it->space.nabsn, it->space.nabo, it->space.nawun, it->space.nacwu);
    printf("compare %d\npairs %d\nzeroes %d\nuncorrectable %d\ndataset %d\ndlfeat %u\n", it->has_compare, it->has_pairs, it->has_zeroes, it->has_uncorrectable, it->has_dataset, it->space.dlfeat);
    if (fflush(stdout) != 0) {
        fail("standard output can't be written");
    }
}

/* Connects one more controller. */
static struct controller *connect_controller(unsigned queues)
{
    char fault[FAULT_ROOM];
    struct controller *it = &controllers[controller_count];
    if (!controller_open(it, &asked.connecting, asked.namespace_id, queues, fault, sizeof fault)) {
        fail("%s: %s", asked.address, fault);
    }
    controller_count++;
    return it;
}

/* Reads the lists, and says which blocks the window has. */
static void read_lists(const struct identity *it, char **paths)
{
    char fault[FAULT_ROOM];
    uint64_t end = 0;
    if (!it->block) {
        fail("%s: namespace %" PRIu32 " has blocks with metadata, or of no size that a host can use", asked.address, asked.namespace_id);
    }
    if (it->block != 512 && it->block != 4096) {
        fail("%s: its blocks have %" PRIu32 " bytes, and a trace's have 512 or 4096", asked.address, it->block);
    }
    window = (struct window){.first = asked.first, .block = it->block, .most = it->most, .namespace_id = asked.namespace_id};
    for (unsigned place = 0; place < host_count; place++) {
        struct list *list = &hosts[place].list;
        if (!list_read(list, paths[place], &window, fault, sizeof fault)) {
            fail("%s", fault);
        }
        end = list->end > end ? list->end : end;
    }
    uint64_t room = asked.first < it->space.blocks ? it->space.blocks - asked.first : 0, most = room < MOST_BLOCKS ? room : MOST_BLOCKS;
    window.blocks = asked.blocks ? asked.blocks : end ? end : 1;
    if (window.blocks > most) {
        fail("the window has %" PRIu64 " blocks from LBA %" PRIu64 ", and %s", window.blocks, asked.first, window.blocks > room ? "the namespace ends before: --nsze says how many" : "a trace has at most 65536");
    }
    for (unsigned place = 0; place < host_count && window.blocks < room; place++) {
        if (hosts[place].list.end > window.blocks) {
            fail("%s: line %u goes on behind the window, where blocks of others are", paths[place], hosts[place].list.end_line);
        }
    }
}

/* Says that the window is overwritten, or ends where that isn't asked for. */
static void announce(const struct identity *it)
{
    bool changes = asked.fills, deallocates = false;
    for (struct host *host = hosts; host < hosts + host_count; host++) {
        changes = changes || host->list.changes;
        deallocates = deallocates || host->list.deallocates;
    }
    if (changes) {
        fprintf(stderr, "zalkvorn-host: %s LBAs %" PRIu64 " to %" PRIu64 " of namespace %" PRIu32 " of %s (%s)%s\n", asked.overwrites ? "overwrites" : "would overwrite", window.first,
                window.first + window.blocks - 1, window.namespace_id, asked.address, it->model, asked.overwrites ? "" : ": --overwrite has it done");
    }
    if (changes && !asked.overwrites) {
        exit(1);
    }
    if (deallocates && *deallocated_words(it->space.dlfeat) == '\0') {
        fprintf(stderr, "zalkvorn-host: note: the device doesn't say what deallocated blocks read as (DLFEAT %u): the trace is judged as if it were zeroes or bytes FFh\n", it->space.dlfeat);
    }
}

/* Connects an I/O queue for each list. */
static void connect_queues(void)
{
    char fault[FAULT_ROOM];
    for (struct host *host = hosts; host < hosts + host_count; host++) {
        unsigned place = (unsigned)(host - hosts), depth = asked.depths[place < asked.depth_count ? place : asked.depth_count - 1];
        struct controller *it = !asked.has_controllers ? controllers : place ? connect_controller(1) : controllers;
        host->number = place + 1;
        if (!asked.has_controllers && host_count > it->identity.queues) {
            fail("the controller gives %" PRIu32 " I/O queues: with --controllers each list has a controller of its own", it->identity.queues);
        }
        if (depth >= it->identity.entries) {
            fail("the controller's queues have %" PRIu32 " entries, and --depth is to be less", it->identity.entries);
        }
        if (host->list.has_pairs && depth < 2) {
            fail("list %u has fused pairs, and these want a depth of 2", host->number);
        }
        host->queue = controller_queue(it, &asked.connecting, (uint16_t)(asked.has_controllers ? 1 : host->number), depth, host->list.longest, fault, sizeof fault);
        if (!host->queue) {
            fail("list %u: %s", host->number, fault);
        }
    }
    const struct queue *first = hosts->queue;
    if (asked.connecting.header_digest != first->receiving.header_digest || asked.connecting.data_digest != first->receiving.data_digest) {
        fprintf(stderr, "zalkvorn-host: note: the controller doesn't give the digests that were asked for\n");
    }
}

/* Has the lists sent all at once, and gives the seconds that this took. */
static double run(void)
{
    if (pthread_barrier_init(&together, NULL, host_count + 1) != 0) {
        fail("no memory");
    }
    for (struct host *host = hosts; host < hosts + host_count; host++) {
        int error = pthread_create(&host->thread, NULL, work, host);
        if (error) {
            fail("a thread can't be started: %s", strerror(error));
        }
    }
    uint64_t began = now();
    pthread_barrier_wait(&together);
    for (struct host *host = hosts; host < hosts + host_count; host++) {
        pthread_join(host->thread, NULL);
    }
    return (double)(now() - began) / 1e9;
}

int main(int words, char **word)
{
    read_words(words, word);
    resolve(asked.address);
    const struct identity *it = &connect_controller(host_count && !asked.has_controllers ? host_count : 1)->identity;
    if (asked.identifies) {
        print_identity(it);
        controller_close(controllers);
        return 0;
    }
    read_lists(it, word + optind + 1);
    struct head by = judged_by(it->space);
    announce(it);
    FILE *out = strcmp(asked.out, "-") ? fopen(asked.out, "w") : stdout;
    if (!out) {
        fail("%s can't be written: %s", asked.out, strerror(errno));
    }
    connect_queues();
    if (asked.fills) {
        fill(hosts->queue);
    }
    double seconds = run();
    print_trace(out, &by, deallocated_words(it->space.dlfeat));
    uint32_t unended = summary(seconds);
    for (struct host *host = hosts; host < hosts + host_count; host++) {
        queue_close(host->queue);
        free(host->trace);
        free(host->list.commands);
        free(host->list.text);
    }
    for (unsigned place = 0; place < controller_count; place++) {
        controller_close(&controllers[place]);
    }
    freeaddrinfo((struct addrinfo *)asked.connecting.addresses);
    return unended ? 2 : 0;
}
