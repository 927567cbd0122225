/* zalkvorn-target: an NVMe/TCP subsystem whose one namespace is that of zalkvorn.h. What it takes is told by --help.
 *
 * The main thread accepts connections and waits for a signal; the threads of target-loop.c serve them. */
#include <errno.h>
#include <fcntl.h>
#include <getopt.h>
#include <netdb.h>
#include <netinet/in.h>
#include <netinet/tcp.h>
#include <poll.h>
#include <signal.h>
#include <stdio.h>
#include <stdlib.h>
#include <sys/random.h>
#include <sys/signalfd.h>
#include <sys/socket.h>
#include <unistd.h>

#include "target-controller.h"
#include "target-loop.h"
#include "target-media.h"

/* Connections at a time: more are closed as soon as they come. */
enum { MOST_CONNECTIONS = 256 };
enum { BACKLOG = 128, EXIT_WORDS = 1 };

static const char USAGE[] =
    "zalkvorn-target [OPTION ..]\n"
    "\n"
    "Serves a namespace in memory to NVMe/TCP hosts, until SIGINT or SIGTERM.\n"
    "\n"
    "  --listen ADDRESS[:PORT]   a numeric address, IPv6 in brackets (127.0.0.1:4420); port 0 is any that is free\n"
    "  --nqn NQN                 the name of the subsystem (nqn.2026-11.org.zalkvorn:one)\n"
    "  --nsze N                  blocks of the namespace (32768)\n"
    "  --block N                 bytes of a block, 512 or 4096 (512)\n"
    "  --nabsn N, --nabo N       an atomic boundary at each NABSN + 1 blocks (7), from LBA NABO (0); NABSN 0 is none\n"
    "  --nawun N, --nacwu N      blocks of an atomic Write and an atomic pair, less one (as NABSN; 65535 without boundaries)\n"
    "  --threads N               threads that serve connections, 1 to 64 (as many as there are processors)\n"
    "  --record FILE             at the end the record of all that was done is written there and audited\n"
    "  --tell                    tells on standard error whose connection was ended for what fault\n"
    "\n"
    "Numbers may be hexadecimal, as 0x20, or have k, m or g behind.\n"
    "Exit status: 0; 2 where the record isn't lawful; 1 for what else goes wrong.\n";

struct asked {
    char address[NQN_BYTES], service[32];
    struct zk_namespace numbers;
    bool has_nawun, has_nacwu;
    unsigned threads;
    const char *record;
};

static _Noreturn void fail(const char *told, const char *why)
{
    fprintf(stderr, "zalkvorn-target: %s%s%s\n", told, why ? ": " : "", why ? why : "");
    exit(EXIT_WORDS);
}

/* A number of an option, at most `most`. */
static uint64_t number_in(const char *text, uint64_t most, const char *option)
{
    char *end = NULL;
    errno = 0;
    uint64_t number = strtoull(text, &end, text[0] == '0' && (text[1] | 0x20) == 'x' ? 16 : 10);
    unsigned shift = *end == 'k' ? 10 : *end == 'm' ? 20 : *end == 'g' ? 30 : 0;
    if (text[0] < '0' || text[0] > '9' || errno || (shift ? end[1] : *end) || number > most >> shift) {
        fail(option, "there is no such number");
    }
    return number << shift;
}

/* The address and the port of a text as 127.0.0.1, 127.0.0.1:4420, [::1] or [::1]:4420. */
static void read_listen(struct asked *asked, const char *text)
{
    const char *begin = *text == '[' ? text + 1 : text, *end = strchr(begin, *text == '[' ? ']' : ':'), *rest = end ? end + (*end == ']') : "";
    size_t length = end ? (size_t)(end - begin) : strlen(begin);
    if ((*text == '[' && !end) || (*rest && *rest != ':') || length == 0 || length >= sizeof asked->address) {
        fail("--listen", "an address is written as 127.0.0.1:4420 or [::1]:4420");
    }
    memcpy(asked->address, begin, length);
    asked->address[length] = 0;
    if (*rest == ':') {
        snprintf(asked->service, sizeof asked->service, "%u", (unsigned)number_in(rest + 1, 65535, "--listen"));
    }
}

static void read_words(struct asked *asked, int words, char **word)
{
    enum { LISTEN = 1, NQN, NSZE, BLOCK, NABSN, NABO, NAWUN, NACWU, THREADS, RECORD, TELL, HELP };
    static const struct option options[] = {
        {"listen", required_argument, NULL, LISTEN}, {"nqn", required_argument, NULL, NQN}, {"nsze", required_argument, NULL, NSZE},
        {"block", required_argument, NULL, BLOCK}, {"nabsn", required_argument, NULL, NABSN}, {"nabo", required_argument, NULL, NABO},
        {"nawun", required_argument, NULL, NAWUN}, {"nacwu", required_argument, NULL, NACWU}, {"threads", required_argument, NULL, THREADS},
        {"record", required_argument, NULL, RECORD}, {"tell", no_argument, NULL, TELL}, {"help", no_argument, NULL, HELP}, {0},
    };
    struct zk_namespace *numbers = &asked->numbers;
    for (int option; (option = getopt_long(words, word, "", options, NULL)) != -1;) {
        switch (option) {
        case LISTEN:
            read_listen(asked, optarg);
            break;
        case NQN:
            if (strlen(optarg) == 0 || strlen(optarg) >= 224) {
                fail("--nqn", "a name has 1 to 223 bytes");
            }
            snprintf(identity.subsystem, sizeof identity.subsystem, "%s", optarg);
            break;
        case NSZE:
            numbers->nsze = number_in(optarg, UINT64_MAX, "--nsze");
            break;
        case BLOCK:
            numbers->block_size = (uint32_t)number_in(optarg, UINT32_MAX, "--block");
            break;
        case NABSN:
            numbers->nabsn = (uint16_t)number_in(optarg, UINT16_MAX, "--nabsn");
            break;
        case NABO:
            numbers->nabo = (uint16_t)number_in(optarg, UINT16_MAX, "--nabo");
            break;
        case NAWUN:
            numbers->nawun = (uint16_t)number_in(optarg, UINT16_MAX, "--nawun");
            asked->has_nawun = true;
            break;
        case NACWU:
            numbers->nacwu = (uint16_t)number_in(optarg, UINT16_MAX, "--nacwu");
            asked->has_nacwu = true;
            break;
        case THREADS:
            asked->threads = (unsigned)number_in(optarg, MOST_LOOPS, "--threads");
            break;
        case RECORD:
            asked->record = optarg;
            break;
        case TELL:
            identity.is_told = true;
            break;
        case HELP:
            fputs(USAGE, stdout);
            exit(0);
        default:
            fputs(USAGE, stderr);
            exit(EXIT_WORDS);
        }
    }
    if (optind != words) {
        fputs(USAGE, stderr);
        exit(EXIT_WORDS);
    }
    uint16_t whole = numbers->nabsn ? numbers->nabsn : UINT16_MAX;
    numbers->nawun = asked->has_nawun ? numbers->nawun : whole;
    numbers->nacwu = asked->has_nacwu ? numbers->nacwu : whole;
    if (asked->threads == 0) {
        long processors = sysconf(_SC_NPROCESSORS_ONLN);
        asked->threads = processors < 1 ? 1 : processors < MOST_LOOPS ? (unsigned)processors : MOST_LOOPS;
    }
}

/* Names that no other run has: the serial number, and the namespace's UUID, of version 4. */
static void name_instance(void)
{
    uint8_t *uuid = identity.uuid;
    if (getrandom(uuid, sizeof identity.uuid, 0) != sizeof identity.uuid) {
        fail("no random numbers", strerror(errno));
    }
    uuid[6] = (uint8_t)((uuid[6] & 0x0f) | 0x40);
    uuid[8] = (uint8_t)((uuid[8] & 0x3f) | 0x80);
    snprintf(identity.serial, sizeof identity.serial, "ZK%02x%02x%02x%02x%02x%02x", uuid[10], uuid[11], uuid[12], uuid[13], uuid[14], uuid[15]);
}

/* An address as text, with its port. */
static void tell_address(char *text, size_t room, const struct sockaddr_storage *at, socklen_t length)
{
    char address[256] = "?", service[32] = "?";
    getnameinfo((const struct sockaddr *)at, length, address, sizeof address, service, sizeof service, NI_NUMERICHOST | NI_NUMERICSERV);
    snprintf(text, room, at->ss_family == AF_INET6 ? "[%.45s]:%.5s" : "%.45s:%.5s", address, service);
}

/* A socket that listens, and where, as text. */
static int listener_at(const struct asked *asked, char *where, size_t room)
{
    struct addrinfo hints = {.ai_flags = AI_NUMERICHOST | AI_NUMERICSERV | AI_PASSIVE, .ai_socktype = SOCK_STREAM}, *at;
    struct sockaddr_storage here = {0};
    socklen_t length = sizeof here;
    int yes = 1, code = getaddrinfo(asked->address, asked->service, &hints, &at);
    if (code != 0) {
        fail(asked->address, gai_strerror(code));
    }
    int listener = socket(at->ai_family, SOCK_STREAM | SOCK_CLOEXEC | SOCK_NONBLOCK, 0);
    if (listener < 0 || setsockopt(listener, SOL_SOCKET, SO_REUSEADDR, &yes, sizeof yes) != 0 || bind(listener, at->ai_addr, at->ai_addrlen) != 0
        || listen(listener, BACKLOG) != 0 || getsockname(listener, (struct sockaddr *)&here, &length) != 0) {
        fail(asked->address, strerror(errno));
    }
    freeaddrinfo(at);
    tell_address(where, room, &here, length);
    return listener;
}

/* Takes the connections that wait to be accepted. False, for a while, where there are too many files. */
static bool accept_all(int listener)
{
    for (;;) {
        struct sockaddr_storage at = {0};
        socklen_t length = sizeof at;
        char peer[64];
        int yes = 1, it = accept(listener, (struct sockaddr *)&at, &length);
        if (it < 0) {
            return errno == EAGAIN || errno == EWOULDBLOCK || errno == EINTR || errno == ECONNABORTED;
        }
        fcntl(it, F_SETFD, FD_CLOEXEC);
        fcntl(it, F_SETFL, O_NONBLOCK);
        setsockopt(it, IPPROTO_TCP, TCP_NODELAY, &yes, sizeof yes);
        tell_address(peer, sizeof peer, &at, length);
        struct connection *connection = loops_connections() < MOST_CONNECTIONS ? connection_new(it, peer) : (close(it), NULL);
        if (connection) {
            loops_take(connection);
        }
    }
}

int main(int words, char **word)
{
    struct asked asked = {.address = "127.0.0.1", .service = "4420", .numbers = {32768, 512, 7, 0, 0, 0}};
    char where[64];
    strcpy(identity.subsystem, DEFAULT_SUBSYSTEM);
    read_words(&asked, words, word);
    if (zk_version() != ZK_VERSION) {
        fail("the library is of another version than its header", NULL);
    }
    int code = media_open(&asked.numbers, asked.record != NULL);
    if (code != ZK_DONE) {
        fail(code == ZK_BAD_NAMESPACE ? "there is no namespace of these numbers" : "the namespace can't be opened", zk_code_name(code));
    }
    name_instance();
    int listener = listener_at(&asked, where, sizeof where);
    /* Blocked in all threads, and read here. */
    sigset_t signals;
    sigemptyset(&signals);
    sigaddset(&signals, SIGINT);
    sigaddset(&signals, SIGTERM);
    pthread_sigmask(SIG_BLOCK, &signals, NULL);
    int stop = signalfd(-1, &signals, SFD_CLOEXEC);
    if (stop < 0 || !loops_start(asked.threads)) {
        fail("threads can't be started", strerror(errno));
    }
    printf("zalkvorn-target: %s at %s\n", identity.subsystem, where);
    fflush(stdout);
    struct pollfd waits[2] = {{.fd = stop, .events = POLLIN}, {.fd = listener, .events = POLLIN}};
    while (poll(waits, 2, -1) < 0 || !waits[0].revents) {
        if (waits[1].revents && !accept_all(listener)) {
            poll(waits, 1, 100);
        }
    }
    struct signalfd_siginfo came;
    (void)!read(stop, &came, sizeof came);
    close(listener);
    loops_stop();
    pthread_sigmask(SIG_UNBLOCK, &signals, NULL); /* another one ends the program */
    return asked.record ? media_record(asked.record) : 0;
}
