/* Loads an NVMe/TCP target for a time, by one thread a connection.
 *
 *     wire_load ADDRESS PORT fill
 *     wire_load ADDRESS PORT read|write DEPTH CONNECTIONS SECONDS
 *     wire_load ADDRESS PORT read|write DEPTH CONNECTIONS COUNTx
 *
 * Each connection is an I/O queue with DEPTH commands of one block under way, at random places of the whole namespace, for a time or until COUNT have ended. `fill` writes each block once. It prints how many commands ended and the nanoseconds that
 * this took, and fails where one ends with another status than 0/00. The target is asked for no digests. Compiled with clients/nvme-tcp/controller.c, queue.c and pdu.c. */
#include <pthread.h>
#include <stdio.h>
#include <stdlib.h>

#include "../clients/nvme-tcp/controller.h"

enum { MOST_CONNECTIONS = 64, MOST_DEPTH = 127, FILL_DEPTH = 32, WAIT_SECONDS = 30 };

struct share {
    struct queue *queue;
    uint8_t opcode;
    unsigned depth;
    uint64_t blocks, seed, next, ended;
    uint32_t block;
    bool fills, failed;
    uint64_t until, most; /* of `now`, and of commands */
};

static void fail(const char *told, const char *why)
{
    fprintf(stderr, "wire_load: %s: %s\n", told, why);
    exit(1);
}

static uint64_t random_number(uint64_t *seed)
{
    *seed ^= *seed << 13;
    *seed ^= *seed >> 7;
    *seed ^= *seed << 17;
    return *seed;
}

/* Submits the next command as that of a CID, if there is one. */
static bool submit(struct share *it, uint16_t cid, uint8_t *data)
{
    uint8_t entry[ZK_ENTRY_BYTES] = {it->opcode};
    if (it->next == it->most || now() >= it->until) {
        return false;
    }
    put_little(entry + 2, 2, cid);
    put_little(entry + 4, 4, 1);
    put_little(entry + 40, 8, it->fills ? it->next : random_number(&it->seed) % it->blocks);
    it->next++;
    it->failed |= !queue_submit(it->queue, entry, data, it->block);
    return !it->failed;
}

static void *load(void *given)
{
    struct share *it = given;
    uint8_t *data = malloc((size_t)it->depth * it->block);
    unsigned under_way = 0;
    if (!data) {
        it->failed = true;
        return NULL;
    }
    for (size_t place = 0; place < (size_t)it->depth * it->block; place++) {
        data[place] = (uint8_t)(random_number(&it->seed) >> 32);
    }
    for (unsigned cid = 0; cid < it->depth; cid++) {
        under_way += submit(it, (uint16_t)cid, data + (size_t)cid * it->block);
    }
    while (under_way && !it->failed) {
        it->failed = !queue_turn(it->queue);
        for (unsigned place = 0; place < it->depth && !it->failed; place++) {
            struct request *request = &it->queue->requests[place];
            if (request->is_used && request->is_done) {
                uint16_t cid = request->cid;
                it->failed = request->status != 0;
                queue_release(it->queue, request);
                it->ended++;
                under_way--;
                under_way += submit(it, cid, data + (size_t)cid * it->block);
            }
        }
    }
    free(data);
    return NULL;
}

int main(int words, char **word)
{
    static const struct connecting asked_of = {.subsystem = DEFAULT_SUBSYSTEM, .host = "nqn.2026-11.org.zalkvorn:load", .host_id = {7}, .seconds = WAIT_SECONDS};
    static struct share shares[MOST_CONNECTIONS];
    static pthread_t threads[MOST_CONNECTIONS];
    struct connecting asked = asked_of;
    struct controller controller;
    struct addrinfo *at;
    char fault[200];
    bool fills = words == 4 && strcmp(word[3], "fill") == 0;
    if (!fills && (words != 7 || (strcmp(word[3], "read") != 0 && strcmp(word[3], "write") != 0))) {
        fail("words", "ADDRESS PORT fill, or ADDRESS PORT read|write DEPTH CONNECTIONS SECONDS or COUNTx");
    }
    unsigned depth = fills ? FILL_DEPTH : (unsigned)atoi(word[4]), connections = fills ? 1 : (unsigned)atoi(word[5]);
    bool is_count = !fills && strchr(word[6], 'x');
    uint64_t time = fills || is_count ? UINT64_MAX / 2 : (uint64_t)(atof(word[6]) * 1e9), count = is_count ? strtoull(word[6], NULL, 10) / connections : UINT64_MAX;
    if (depth < 1 || depth > MOST_DEPTH || connections < 1 || connections > MOST_CONNECTIONS) {
        fail("words", "a depth is 1 to 127, and there are 1 to 64 connections");
    }
    struct addrinfo hints = {.ai_flags = AI_NUMERICHOST | AI_NUMERICSERV, .ai_socktype = SOCK_STREAM};
    int code = getaddrinfo(word[1], word[2], &hints, &at);
    if (code != 0) {
        fail(word[1], gai_strerror(code));
    }
    asked.addresses = at;
    if (!controller_open(&controller, &asked, 1, connections, fault, sizeof fault)) {
        fail(word[1], fault);
    }
    for (unsigned place = 0; place < connections; place++) {
        struct queue *queue = controller_queue(&controller, &asked, (uint16_t)(place + 1), depth, controller.identity.block, fault, sizeof fault);
        if (!queue) {
            fail(word[1], fault);
        }
        shares[place] = (struct share){.queue = queue, .opcode = !fills && word[3][0] == 'r' ? READ : WRITE, .depth = depth, .blocks = controller.identity.space.blocks,
                                       .seed = 0x9e3779b97f4a7c15u * (place + 1), .block = controller.identity.block, .fills = fills,
                                       .most = fills ? controller.identity.space.blocks : count};
    }
    uint64_t began = now(), ended = 0;
    for (unsigned place = 0; place < connections; place++) {
        shares[place].until = began + time;
        if (pthread_create(&threads[place], NULL, load, &shares[place]) != 0) {
            fail("threads", "one can't be started");
        }
    }
    for (unsigned place = 0; place < connections; place++) {
        pthread_join(threads[place], NULL);
        if (shares[place].failed) {
            fail("a command failed", *shares[place].queue->fault ? shares[place].queue->fault : "its status isn't 0/00");
        }
        ended += shares[place].ended;
    }
    printf("%llu %llu\n", (unsigned long long)ended, (unsigned long long)(now() - began));
    for (unsigned place = 0; place < connections; place++) {
        queue_close(shares[place].queue);
    }
    controller_close(&controller);
    freeaddrinfo(at);
    return 0;
}
