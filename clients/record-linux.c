/* Writes to and reads from a file, a block device or an NVMe namespace by threads, and writes the trace of it: which commands there were,
   when each began and ended, and what came back. `nvmu witness` and `nvq certify` judge traces.

       gcc -Wall -Wextra -Werror -O2 -pthread -o record-linux clients/record-linux.c
       ./record-linux --out out/trace --mode buffered out/scratch
       ./record-linux --help

   The load is one that finds bugs: few units, most commands on a whole unit, half of them Writes, and in each block that is written a stamp
   that no other block has. A stamp is four bytes, and each fills a quarter of the block, so that a block that was torn is none that
   anybody wrote, and data stays short as runs of equal bytes.

   A thread is a host, with one command at a time. The times are CLOCK_MONOTONIC in nanoseconds, before the call and after its return. A call
   that failed is 0/06, which says nothing of what was done; the status of an NVMe command is the device's. What hadn't ended at the
   timeout, or was given up by the system, never ended in the trace. */
#define _GNU_SOURCE
#include <errno.h>
#include <fcntl.h>
#include <getopt.h>
#include <inttypes.h>
#include <linux/fs.h>
#include <linux/nvme_ioctl.h>
#include <pthread.h>
#include <stdarg.h>
#include <stdbool.h>
#include <stdint.h>
#include <stdio.h>
#include <stdlib.h>
#include <string.h>
#include <sys/ioctl.h>
#include <sys/mman.h>
#include <sys/stat.h>
#include <time.h>
#include <unistd.h>

#include "identify.h"

/* Limits of a trace's namespace and of its hosts. */
enum { MOST_BLOCKS = 65536, MOST_UNITS = 4096, MOST_HOSTS = 64, MOST_COMMANDS = 4194304 };

/* Opcodes of commands, and of Identify, as the standard has them. */
enum { WRITE = 0x01, READ = 0x02, COMPARE = 0x05, ZEROES = 0x08, DATASET = 0x09, IDENTIFY = 0x06 };

/* Statuses: type * 256 + code. */
enum { INTERNAL_ERROR = 0x006, COMPARE_FAILURE = 0x285 };

enum mode { DIRECT, BUFFERED, MAPPED, NVME };

static const char *const MODES[] = {"direct", "buffered", "mmap", "nvme"};

/* The bytes of a block, as far as they are told: a stamp whose four bytes fill a quarter each, or, where they don't, which of the
   thread's odd blocks they are, from 1. */
struct block {
    uint32_t stamp;
    uint32_t odd;
};

struct command {
    uint64_t began, ended; /* ended is 0 as long as it hasn't, and where the system gave it up */
    struct block *blocks;  /* of a Write, a Compare, and a Read that succeeded */
    uint32_t lba;
    uint32_t count;
    uint16_t status;
    uint8_t opcode;
};

struct host {
    pthread_t thread;
    pthread_mutex_t held; /* by the thread, but for its calls; at the end by who prints, for good */
    unsigned number;      /* from 0 */
    uint64_t dice;
    unsigned char *data;
    unsigned char *odds;
    size_t odd_count, odd_room;
    struct command *commands;
    uint32_t begun;
    struct command *last_read; /* whose data a Compare may have */
};

static struct {
    const char *target, *out, *start, *reads;
    enum mode mode;
    bool may_overwrite;
    uint64_t first, seed;
    uint32_t units, unit_blocks, block, hosts, commands, writes, whole, others, timeout;
} asked = {
    .start = "zeroes", .reads = "atomic", .mode = DIRECT, .units = 2, .unit_blocks = 128, .block = 512, .hosts = 16,
    .commands = 4000, .writes = 50, .whole = 75, .timeout = 60, .seed = 1,
};

static int target = -1;
static unsigned char *mapped;
static uint32_t namespace_id;
static struct head head;
static const char *deallocated = ""; /* the words of the head for deallocated blocks */
static pthread_barrier_t together;
static pthread_mutex_t ended_lock = PTHREAD_MUTEX_INITIALIZER;
static pthread_cond_t ended_one;
static uint32_t ended_hosts;

static const char USAGE[] =
    "record-linux --out TRACE [OPTION..] TARGET\n"
    "\n"
    "Does a load of Writes and Reads on TARGET by threads, and writes the trace of it as text.\n"
    "The blocks of the window are overwritten.\n"
    "\n"
    "  --out TRACE        where the trace goes; - is standard output\n"
    "  --mode MODE        direct (O_DIRECT, the default), buffered (pread and pwrite), mmap (memcpy), or\n"
    "                     nvme (NVME_IOCTL_IO_CMD on a character device, as /dev/ng0n1 is)\n"
    "  --overwrite        TARGET is a device, or a file that stands there, and may be overwritten\n"
    "  --units N          how many units the window has, 1 to 4096 (2)\n"
    "  --unit-blocks N    how many blocks each unit has, from 2 (128); all units together at most 65536\n"
    "  --block N          bytes of a block, 512 or 4096 (512)\n"
    "  --first LBA        where the window begins on TARGET (0)\n"
    "  --threads N        how many threads, each a host, 1 to 64 (16)\n"
    "  --commands N       how many commands all threads do together, at most 4194304 (4000)\n"
    "  --writes PERCENT   how many commands are Writes (50)\n"
    "  --whole PERCENT    how many have all blocks of their unit (75)\n"
    "  --others PERCENT   with nvme, how many are Compares of what was read last, Write Zeroes and Deallocates (0)\n"
    "  --start WORD       zeroes: the window is filled with zero bytes first (the default); unknown: it is left as it is\n"
    "  --reads WORD       what a Read is held to: atomic (the default), which is the standard's; whole, which nvq certify\n"
    "                     takes for atomic too; or by-blocks, which hides a Write that a Read finds half done\n"
    "  --seed N           the same seed asks for the same commands (1)\n"
    "  --timeout SECONDS  after that, commands that haven't ended are told as such (60)\n"
    "\n"
    "Exit status: 0 where the trace was written, else 1.\n";

static void fail(const char *told, ...) __attribute__((noreturn, format(printf, 1, 2)));

/* Says what is wrong, and ends. */
static void fail(const char *told, ...) {
    va_list more;
    va_start(more, told);
    fprintf(stderr, "record-linux: ");
    vfprintf(stderr, told, more);
    fprintf(stderr, "\n");
    va_end(more);
    exit(1);
}

static void *room(size_t count, size_t size) {
    void *at = calloc(count ? count : 1, size);
    if (at == NULL) {
        fail("no memory");
    }
    return at;
}

static uint64_t now(void) {
    struct timespec at;
    clock_gettime(CLOCK_MONOTONIC, &at);
    return (uint64_t)at.tv_sec * 1000000000u + (uint64_t)at.tv_nsec;
}

/* A xorshift generator. */
static uint32_t roll(struct host *host, uint32_t sides) {
    host->dice ^= host->dice << 13;
    host->dice ^= host->dice >> 7;
    host->dice ^= host->dice << 17;
    return (uint32_t)((host->dice >> 32) % sides);
}

/* Each number gives another one: the mixing at the end of MurmurHash3, which gives 0 for 0 alone. */
static uint32_t mixed(uint32_t number) {
    number ^= number >> 16;
    number *= 0x85ebca6b;
    number ^= number >> 13;
    number *= 0xc2b2ae35;
    return number ^ number >> 16;
}

/* The stamp of a number from 1. Two numbers have two stamps, and none is 0, which is what zero bytes have. */
static uint32_t stamp_of(uint32_t number) {
    uint32_t by = mixed((uint32_t)asked.seed);
    uint32_t stamp = mixed(number ^ by);
    return stamp ? stamp : mixed(by);
}

static void fill(unsigned char *block, uint32_t stamp) {
    uint32_t quarter = asked.block / 4;
    for (int place = 0; place < 4; place++) {
        memset(block + (size_t)place * quarter, (int)(stamp >> 8 * place & 255), quarter);
    }
}

/* Notes what a block that was read has. */
static struct block noted(struct host *host, const unsigned char *block) {
    uint32_t quarter = asked.block / 4;
    uint32_t stamp = 0;
    bool is_stamp = true;
    for (int place = 0; place < 4; place++) {
        const unsigned char *at = block + (size_t)place * quarter;
        stamp |= (uint32_t)at[0] << 8 * place;
        is_stamp = is_stamp && memcmp(at, at + 1, quarter - 1) == 0;
    }
    if (is_stamp) {
        return (struct block){stamp, 0};
    }
    if (host->odd_count == host->odd_room) {
        host->odd_room = host->odd_room ? 2 * host->odd_room : 64;
        host->odds = realloc(host->odds, host->odd_room * asked.block);
        if (host->odds == NULL) {
            fail("no memory");
        }
    }
    memcpy(host->odds + host->odd_count * asked.block, block, asked.block);
    return (struct block){0, (uint32_t)++host->odd_count};
}

/* Sends an NVMe command, and gives its status, or -1 where the system gave it up. */
static int send(struct nvme_passthru_cmd *words, uint64_t lba, uint32_t count) {
    words->nsid = namespace_id;
    if (words->opcode != DATASET) {
        words->cdw10 = (uint32_t)lba;
        words->cdw11 = (uint32_t)(lba >> 32);
        words->cdw12 = count - 1;
    }
    int told = ioctl(target, NVME_IOCTL_IO_CMD, words);
    return told < 0 ? -1 : told & 0x7ff;
}

/* Does a command, and gives its status, or -1 where nobody knows how it ended. */
static int done(uint8_t opcode, unsigned char *data, uint32_t lba, uint32_t count) {
    size_t length = (size_t)count * asked.block;
    off_t at = (off_t)((asked.first + lba) * asked.block);
    switch (asked.mode) {
    case MAPPED:
        if (opcode == WRITE) {
            memcpy(mapped + (size_t)lba * asked.block, data, length);
        } else {
            memcpy(data, mapped + (size_t)lba * asked.block, length);
        }
        return 0;
    case NVME: {
        unsigned char range[16] = {0};
        struct nvme_passthru_cmd words = {.opcode = opcode, .addr = (uintptr_t)data, .data_len = (uint32_t)length};
        if (opcode == ZEROES) {
            words.addr = words.data_len = 0;
        }
        if (opcode == DATASET) {
            uint64_t first = asked.first + lba;
            memcpy(range + 4, &count, 4);
            memcpy(range + 8, &first, 8);
            words.addr = (uintptr_t)range;
            words.data_len = sizeof range;
            words.cdw11 = 4; /* Deallocate, of one range */
        }
        return send(&words, asked.first + lba, count);
    }
    default: {
        ssize_t moved = opcode == WRITE ? pwrite(target, data, length, at) : pread(target, data, length, at);
        return moved == (ssize_t)length ? 0 : INTERNAL_ERROR;
    }
    }
}

/* Chooses a command's opcode and its blocks. */
static void choose(struct host *host, struct command *command) {
    uint32_t size = asked.unit_blocks;
    uint32_t begin = roll(host, asked.units) * size;
    command->lba = begin;
    command->count = size;
    if (roll(host, 100) >= asked.whole) {
        uint32_t first = roll(host, size);
        command->lba = begin + first;
        command->count = 1 + roll(host, size - first);
    }
    uint32_t kind = roll(host, 100);
    command->opcode = roll(host, 100) < asked.writes ? WRITE : READ;
    if (kind < asked.others) {
        const uint8_t others[] = {COMPARE, ZEROES, DATASET};
        command->opcode = others[roll(host, 3)];
    }
    if (command->opcode == COMPARE) {
        struct command *read = host->last_read;
        command->opcode = read ? COMPARE : READ;
        if (read) {
            command->lba = read->lba;
            command->count = read->count;
        }
    }
}

/* Makes the data of a Write or a Compare. */
static void prepare(struct host *host, struct command *command, uint32_t number) {
    if (command->opcode != WRITE && command->opcode != COMPARE) {
        return;
    }
    command->blocks = room(command->count, sizeof *command->blocks);
    for (uint32_t place = 0; place < command->count; place++) {
        uint32_t stamp = command->opcode == WRITE ? stamp_of(number * asked.unit_blocks + place + 1)
                                                   : host->last_read->blocks[place].stamp;
        command->blocks[place].stamp = stamp;
        fill(host->data + (size_t)place * asked.block, stamp);
    }
}

/* Notes what a Read found. */
static void note(struct host *host, struct command *command, struct block *blocks) {
    bool has_odds = false;
    for (uint32_t place = 0; place < command->count; place++) {
        blocks[place] = noted(host, host->data + (size_t)place * asked.block);
        has_odds = has_odds || blocks[place].odd;
    }
    if (!has_odds) {
        host->last_read = command;
    }
}

static void *work(void *given) {
    struct host *host = given;
    uint32_t share = asked.commands / asked.hosts + (host->number < asked.commands % asked.hosts);
    uint32_t before = host->number * (asked.commands / asked.hosts + 1);
    pthread_barrier_wait(&together);
    pthread_mutex_lock(&host->held);
    for (uint32_t place = 0; place < share; place++) {
        struct command *command = &host->commands[place];
        choose(host, command);
        prepare(host, command, before + place);
        struct block *blocks = command->opcode == READ ? room(command->count, sizeof *blocks) : NULL;
        host->begun = place + 1;
        command->began = now();
        pthread_mutex_unlock(&host->held);
        int status = done(command->opcode, host->data, command->lba, command->count);
        uint64_t ended = now();
        pthread_mutex_lock(&host->held);
        if (status >= 0) {
            command->ended = ended;
            command->status = (uint16_t)status;
        }
        if (command->opcode == READ && status == 0) {
            command->blocks = blocks;
            note(host, command, blocks);
        }
    }
    pthread_mutex_unlock(&host->held);
    pthread_mutex_lock(&ended_lock);
    ended_hosts++;
    pthread_cond_signal(&ended_one);
    pthread_mutex_unlock(&ended_lock);
    return NULL;
}

/* Runs of equal bytes, the longest ones. */
struct runs {
    FILE *out;
    uint64_t count;
    unsigned char byte;
    const char *before;
};

static void end_run(struct runs *runs) {
    if (runs->count) {
        fprintf(runs->out, "%s%" PRIu64 "*%02x", runs->before, runs->count, runs->byte);
        runs->before = ",";
        runs->count = 0;
    }
}

static void add(struct runs *runs, unsigned char byte, uint64_t count) {
    if (runs->byte != byte) {
        end_run(runs);
        runs->byte = byte;
    }
    runs->count += count;
}

static void print_data(FILE *out, const struct host *host, const struct command *command) {
    struct runs runs = {.out = out, .before = " "};
    for (uint32_t place = 0; place < command->count; place++) {
        struct block block = command->blocks[place];
        for (uint32_t at = 0; block.odd && at < asked.block; at++) {
            add(&runs, host->odds[(size_t)(block.odd - 1) * asked.block + at], 1);
        }
        for (int quarter = 0; !block.odd && quarter < 4; quarter++) {
            add(&runs, block.stamp >> 8 * quarter & 255, asked.block / 4);
        }
    }
    end_run(&runs);
}

/* A command of some host, and which it is of the host's. */
struct listed {
    struct host *host;
    struct command *command;
    uint32_t place;
};

static int by_begin(const void *one, const void *other) {
    uint64_t first = ((const struct listed *)one)->command->began;
    uint64_t second = ((const struct listed *)other)->command->began;
    return (first > second) - (first < second);
}

static void print_command(FILE *out, const struct listed *listed) {
    const struct command *command = listed->command;
    fprintf(out, "%" PRIu64, command->began);
    if (command->ended) {
        fprintf(out, " %" PRIu64, command->ended);
    } else {
        fprintf(out, " -");
    }
    fprintf(out, " %u %u ", listed->host->number + 1, listed->place % 65536);
    switch (command->opcode) {
    case WRITE:
    case COMPARE:
        fprintf(out, "%s %u %u", command->opcode == WRITE ? "write" : "compare", command->lba, command->count);
        print_data(out, listed->host, command);
        break;
    case DATASET:
        fprintf(out, "dataset %u+%u deallocate", command->lba, command->count);
        break;
    default:
        fprintf(out, "%s %u %u", command->opcode == READ ? "read" : "zeroes", command->lba, command->count);
    }
    if (command->ended) {
        fprintf(out, " = %u/%02x", command->status >> 8, command->status & 255);
        if (command->opcode == READ && command->status == 0) {
            print_data(out, listed->host, command);
        }
    }
    fprintf(out, "\n");
}

/* Opens what the trace goes to, before anything is done. */
static FILE *open_out(void) {
    struct stat written, overwritten;
    if (strcmp(asked.out, "-") == 0) {
        return stdout;
    }
    if (stat(asked.out, &written) == 0 && fstat(target, &overwritten) == 0 && written.st_dev == overwritten.st_dev
        && written.st_ino == overwritten.st_ino) {
        fail("cannot write %s: it is what the load is done on", asked.out);
    }
    FILE *out = fopen(asked.out, "w");
    if (out == NULL) {
        fail("cannot write %s: %s", asked.out, strerror(errno));
    }
    return out;
}

/* Writes the trace, and says on standard error what there was. Hosts that still wait are held where their calls return. */
static void print_trace(FILE *out, struct host *hosts) {
    struct listed *all = room(asked.commands, sizeof *all);
    size_t count = 0, errors = 0, unended = 0, odd = 0;
    uint64_t last_end = 0;
    for (uint32_t number = 0; number < asked.hosts; number++) {
        pthread_mutex_lock(&hosts[number].held);
        for (uint32_t place = 0; place < hosts[number].begun; place++) {
            struct command *command = &hosts[number].commands[place];
            all[count++] = (struct listed){&hosts[number], command, place};
            errors += command->ended && command->status && command->status != COMPARE_FAILURE;
            unended += !command->ended;
            last_end = command->ended > last_end ? command->ended : last_end;
        }
        odd += hosts[number].odd_count;
    }
    qsort(all, count, sizeof *all, by_begin);
    fprintf(out, "trace nsze %u block %u nabsn %u nabo %u nawun %u nacwu %u first %" PRIu64 " start %s reads %s%s\n",
            asked.units * asked.unit_blocks, asked.block, head.nabsn, head.nabo, head.nawun, head.nacwu, asked.first, asked.start, asked.reads, deallocated);
    for (size_t place = 0; place < count; place++) {
        print_command(out, &all[place]);
    }
    if (fflush(out) != 0 || ferror(out) || (out != stdout && fclose(out) != 0)) {
        fail("cannot write %s: %s", asked.out, strerror(errno));
    }
    double seconds = count && last_end > all[0].command->began ? (double)(last_end - all[0].command->began) / 1e9 : 0;
    fprintf(stderr, "%zu commands by %u threads in %.3f s: %zu errors, %zu never ended, %zu blocks read that are torn in themselves\n",
            count, asked.hosts, seconds, errors, unended, odd);
}

/* Asks an NVMe device for a page of Identify: 0 is its namespace's, 1 its controller's. */
static void ask(unsigned char *page, uint32_t which) {
    struct nvme_passthru_cmd words = {
        .opcode = IDENTIFY, .nsid = which ? 0 : namespace_id, .addr = (uintptr_t)page, .data_len = PAGE, .cdw10 = which,
    };
    int status = ioctl(target, NVME_IOCTL_ADMIN_CMD, &words);
    if (status != 0) {
        fail("%s can't be identified: %s", asked.target, status < 0 ? strerror(errno) : "the device refuses it");
    }
}

/* Asks an NVMe device for its namespace and its controller, and refuses one on which the window can't be. The trace's head has what
   they promise. */
static void identify(void) {
    static unsigned char space[PAGE] __attribute__((aligned(PAGE))), controller[PAGE] __attribute__((aligned(PAGE)));
    struct stat standing;
    if (fstat(target, &standing) != 0 || !S_ISCHR(standing.st_mode)) {
        fail("%s is no NVMe character device, as /dev/ng0n1 is; for a file or a block device there are --mode direct, buffered and mmap",
             asked.target);
    }
    int number = ioctl(target, NVME_IOCTL_ID);
    if (number <= 0) {
        fail("%s is no NVMe namespace: %s", asked.target, number < 0 ? strerror(errno) : "it has no number");
    }
    namespace_id = (uint32_t)number;
    ask(space, 0);
    ask(controller, 1);
    struct identified it = identified_by(space, controller);
    uint32_t blocks = asked.units * asked.unit_blocks;
    if (it.shift > 31 || 1u << it.shift != asked.block) {
        fail("%s has blocks of 2 to the power of %u bytes: --block says %u", asked.target, it.shift, asked.block);
    }
    if (it.metadata != 0) {
        fail("%s has %u bytes of metadata with each block", asked.target, it.metadata);
    }
    if (asked.first > it.blocks || blocks > it.blocks - asked.first) {
        fail("%s has %" PRIu64 " blocks, and the window ends behind them", asked.target, it.blocks);
    }
    deallocated = deallocated_words(it.dlfeat);
    head = head_of(&it, asked.first, blocks);
    if (head.units > MOST_UNITS) {
        fail("%s has a boundary each %u blocks, %u units in the window, and a trace has at most %u: take less --units", asked.target,
             head.nabsn + 1, head.units, MOST_UNITS);
    }
    if (head.nawun != it.nawun || head.nacwu != it.nacwu) {
        fprintf(stderr, "record-linux: note: the namespace advertises NAWUN %u and NACWU %u; the head has %u and %u, since NABSN is %u\n", it.nawun,
                it.nacwu, head.nawun, head.nacwu, head.nabsn);
    }
    bool is_apart = head.units > 1 && ((head.nabsn + 1) % asked.unit_blocks || head.nabo % asked.unit_blocks);
    if (head.nawun + 1 < asked.unit_blocks || is_apart) {
        fprintf(stderr, "record-linux: note: the device promises to keep Writes of %u blocks whole within its boundaries (NABSN %u, NABO %u), and not those of %u\n",
                head.nawun + 1, it.nabsn, it.nabo, asked.unit_blocks);
    }
}

/* Opens the target. What stands there already is taken only where it may be overwritten. */
static void open_target(void) {
    int flags = O_RDWR | O_CLOEXEC | (asked.mode == DIRECT ? O_DIRECT : 0);
    struct stat standing;
    bool stands = stat(asked.target, &standing) == 0;
    if (stands && !asked.may_overwrite) {
        fail("%s stands there already: --overwrite has its blocks overwritten", asked.target);
    }
    if (!stands && asked.mode == NVME) {
        fail("%s: %s; --mode nvme wants an NVMe character device, as /dev/ng0n1 is", asked.target, strerror(errno));
    }
    /* Of a block device O_EXCL asks that nobody else has it, such as a mounted file system. */
    bool is_alone = !stands || S_ISBLK(standing.st_mode);
    target = open(asked.target, flags | (stands ? 0 : O_CREAT) | (is_alone ? O_EXCL : 0), 0600);
    if (target < 0) {
        const char *why = asked.mode == DIRECT && errno == EINVAL ? "its file system doesn't take O_DIRECT" : strerror(errno);
        fail("cannot open %s: %s", asked.target, why);
    }
    /* What is no NVMe namespace is held to its units: each Write is one step there. */
    head = (struct head){.nabsn = asked.unit_blocks - 1, .nawun = asked.unit_blocks - 1, .nacwu = asked.unit_blocks - 1, .units = asked.units};
    if (strcmp(asked.reads, "by-blocks") == 0) {
        fprintf(stderr, "record-linux: note: with --reads by-blocks a Write that a Read finds half done isn't noticed\n");
    }
    if (asked.mode == NVME) {
        identify();
    } else if (stands && !S_ISREG(standing.st_mode) && !S_ISBLK(standing.st_mode)) {
        fail("%s is neither a file nor a block device", asked.target);
    }
}

/* Fills the window with zero bytes, so that a trace can say what was there, and waits until they are on the medium. */
static void clear_window(void) {
    size_t length = (size_t)asked.unit_blocks * asked.block;
    unsigned char *zeroes;
    if (posix_memalign((void **)&zeroes, 4096, length) != 0) {
        fail("no memory");
    }
    memset(zeroes, 0, length);
    enum mode mode = asked.mode;
    asked.mode = mode == MAPPED ? BUFFERED : mode;
    for (uint32_t unit = 0; unit < asked.units; unit++) {
        errno = 0;
        int status = done(WRITE, zeroes, unit * asked.unit_blocks, asked.unit_blocks);
        if (status != 0) {
            const char *help = mode == DIRECT && errno == EINVAL ? "; with --mode direct it may want --block 4096" : "";
            if (mode == NVME && status > 0) {
                fail("%s answers a Write of %u blocks with %u/%02x", asked.target, asked.unit_blocks, (unsigned)status >> 8, status & 255);
            }
            fail("cannot write %s: %s%s", asked.target, errno ? strerror(errno) : "it took only a part", help);
        }
    }
    asked.mode = mode;
    if (mode != NVME && fsync(target) != 0) {
        fail("cannot write %s: %s", asked.target, strerror(errno));
    }
    free(zeroes);
}

static void map_target(void) {
    size_t length = (size_t)asked.units * asked.unit_blocks * asked.block;
    struct stat standing;
    if (fstat(target, &standing) == 0 && S_ISREG(standing.st_mode) && (uint64_t)standing.st_size < asked.first * asked.block + length) {
        fail("%s is shorter than the window", asked.target);
    }
    mapped = mmap(NULL, length, PROT_READ | PROT_WRITE, MAP_SHARED, target, (off_t)(asked.first * asked.block));
    if (mapped == MAP_FAILED) {
        fail("cannot map %s: %s", asked.target, strerror(errno));
    }
}

static uint64_t number(const char *option, const char *text, uint64_t least, uint64_t most) {
    char *end;
    errno = 0;
    uint64_t value = strtoull(text, &end, 10);
    if (*text < '0' || *text > '9' || *end || errno || value < least || value > most) {
        fail("--%s is %" PRIu64 " to %" PRIu64 ", not %s", option, least, most, text);
    }
    return value;
}

static const char *one_of(const char *option, const char *text, const char *first, const char *second) {
    if (strcmp(text, first) != 0 && strcmp(text, second) != 0) {
        fail("--%s is %s or %s, not %s", option, first, second, text);
    }
    return text;
}

static const char *reads_word(const char *text) {
    if (strcmp(text, "atomic") != 0 && strcmp(text, "whole") != 0 && strcmp(text, "by-blocks") != 0) {
        fail("--reads is atomic, whole or by-blocks, not %s", text);
    }
    return text;
}

static enum mode mode_of(const char *text) {
    for (int mode = DIRECT; mode <= NVME; mode++) {
        if (strcmp(text, MODES[mode]) == 0) {
            return (enum mode)mode;
        }
    }
    fail("--mode is direct, buffered, mmap or nvme, not %s", text);
}

static void read_words(int words, char **word) {
    static const struct option options[] = {
        {"out", required_argument, NULL, 'o'},     {"mode", required_argument, NULL, 'm'},
        {"overwrite", no_argument, NULL, 'O'},     {"units", required_argument, NULL, 'u'},
        {"unit-blocks", required_argument, NULL, 'b'}, {"block", required_argument, NULL, 'B'},
        {"first", required_argument, NULL, 'f'},   {"threads", required_argument, NULL, 't'},
        {"commands", required_argument, NULL, 'c'}, {"writes", required_argument, NULL, 'w'},
        {"whole", required_argument, NULL, 'W'},   {"others", required_argument, NULL, 'x'},
        {"start", required_argument, NULL, 's'},   {"reads", required_argument, NULL, 'r'},
        {"seed", required_argument, NULL, 'S'},    {"timeout", required_argument, NULL, 'T'},
        {"help", no_argument, NULL, 'h'},          {NULL, 0, NULL, 0},
    };
    for (int option, place = 0; (option = getopt_long(words, word, "h", options, &place)) != -1;) {
        const char *name = options[place].name;
        switch (option) {
        case 'o': asked.out = optarg; break;
        case 'm': asked.mode = mode_of(optarg); break;
        case 'O': asked.may_overwrite = true; break;
        case 'u': asked.units = (uint32_t)number(name, optarg, 1, MOST_UNITS); break;
        case 'b': asked.unit_blocks = (uint32_t)number(name, optarg, 2, MOST_BLOCKS); break;
        case 'B': asked.block = (uint32_t)number(name, optarg, 512, 4096); break;
        case 'f': asked.first = number(name, optarg, 0, UINT64_MAX >> 13); break;
        case 't': asked.hosts = (uint32_t)number(name, optarg, 1, MOST_HOSTS); break;
        case 'c': asked.commands = (uint32_t)number(name, optarg, 1, MOST_COMMANDS); break;
        case 'w': asked.writes = (uint32_t)number(name, optarg, 0, 100); break;
        case 'W': asked.whole = (uint32_t)number(name, optarg, 0, 100); break;
        case 'x': asked.others = (uint32_t)number(name, optarg, 0, 100); break;
        case 's': asked.start = one_of(name, optarg, "zeroes", "unknown"); break;
        case 'r': asked.reads = reads_word(optarg); break;
        case 'S': asked.seed = number(name, optarg, 0, UINT32_MAX); break;
        case 'T': asked.timeout = (uint32_t)number(name, optarg, 1, 86400); break;
        case 'h':
            if (fputs(USAGE, stdout) < 0 || fflush(stdout) != 0) {
                fail("cannot write standard output");
            }
            exit(0);
        default: fail("--help tells which options there are");
        }
    }
    if (optind + 1 != words) {
        fail("one TARGET is wanted; --help says more");
    }
    asked.target = word[optind];
    if (asked.out == NULL) {
        fail("--out isn't given");
    }
    if (asked.block != 512 && asked.block != 4096) {
        fail("--block is 512 or 4096, not %u", asked.block);
    }
    if ((uint64_t)asked.units * asked.unit_blocks > MOST_BLOCKS) {
        fail("%u units of %u blocks are more than %u blocks", asked.units, asked.unit_blocks, MOST_BLOCKS);
    }
    if (asked.others && asked.mode != NVME) {
        fail("--others wants --mode nvme");
    }
    if (((uint64_t)asked.commands + asked.hosts) * asked.unit_blocks >= UINT32_MAX) {
        fail("so many commands of %u blocks have more blocks than there are stamps", asked.unit_blocks);
    }
    if (asked.mode == MAPPED && asked.first * asked.block % (uint64_t)sysconf(_SC_PAGESIZE) != 0) {
        fail("with --mode mmap the window begins where a page does");
    }
}

/* Waits until all hosts have ended, or the time is over. */
static void wait_for_hosts(void) {
    struct timespec until;
    clock_gettime(CLOCK_MONOTONIC, &until);
    until.tv_sec += asked.timeout;
    int told = 0;
    pthread_mutex_lock(&ended_lock);
    while (ended_hosts < asked.hosts && told == 0) {
        told = pthread_cond_timedwait(&ended_one, &ended_lock, &until);
    }
    pthread_mutex_unlock(&ended_lock);
}

int main(int words, char **word) {
    read_words(words, word);
    open_target();
    FILE *out = open_out();
    if (strcmp(asked.start, "zeroes") == 0) {
        clear_window();
    }
    if (asked.mode == MAPPED) {
        map_target();
    }
    pthread_condattr_t monotonic;
    pthread_condattr_init(&monotonic);
    pthread_condattr_setclock(&monotonic, CLOCK_MONOTONIC);
    pthread_cond_init(&ended_one, &monotonic);
    pthread_barrier_init(&together, NULL, asked.hosts + 1);
    struct host *hosts = room(asked.hosts, sizeof *hosts);
    for (uint32_t number = 0; number < asked.hosts; number++) {
        struct host *host = &hosts[number];
        host->number = number;
        pthread_mutex_init(&host->held, NULL);
        host->dice = 0x9e3779b97f4a7c15u * (asked.seed * MOST_HOSTS + number + 1);
        host->commands = room(asked.commands / asked.hosts + 1, sizeof *host->commands);
        if (posix_memalign((void **)&host->data, 4096, (size_t)asked.unit_blocks * asked.block) != 0) {
            fail("no memory");
        }
        int error = pthread_create(&host->thread, NULL, work, host);
        if (error != 0) {
            fail("cannot start a thread: %s", strerror(error));
        }
    }
    pthread_barrier_wait(&together);
    wait_for_hosts();
    print_trace(out, hosts);
    /* A thread may still wait for a command that doesn't end. */
    fflush(NULL);
    _exit(0);
}
