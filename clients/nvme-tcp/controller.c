#include "controller.h"

#include <stdio.h>
#include <time.h>

enum { ADMIN_DEPTH = 31 };

/* Optional commands of Identify Controller: ONCS, and bit 0 of FUSES. */
enum { HAS_COMPARE = 1, HAS_UNCORRECTABLE = 2, HAS_DATASET = 4, HAS_ZEROES = 8, HAS_PAIRS = 1 };

static int get_property(struct queue *admin, uint32_t offset, uint64_t *value)
{
    uint8_t entry[ZK_ENTRY_BYTES] = {FABRICS};
    entry[4] = PROPERTY_GET;
    entry[40] = offset == PROPERTY_CAP; /* eight bytes */
    put_little(entry + 44, 4, offset);
    return queue_do(admin, entry, NULL, 0, value);
}

static int set_property(struct queue *admin, uint32_t offset, uint64_t value)
{
    uint8_t entry[ZK_ENTRY_BYTES] = {FABRICS};
    entry[4] = PROPERTY_SET;
    put_little(entry + 44, 4, offset);
    put_little(entry + 48, 8, value);
    return queue_do(admin, entry, NULL, 0, NULL);
}

static int identify(struct queue *admin, uint8_t what, uint32_t namespace_id, uint8_t *page)
{
    uint8_t entry[ZK_ENTRY_BYTES] = {IDENTIFY};
    put_little(entry + 4, 4, namespace_id);
    entry[40] = what;
    memset(page, 0, PAGE_BYTES);
    return queue_do(admin, entry, page, PAGE_BYTES, NULL);
}

static int ask_for_queues(struct queue *admin, unsigned count, uint32_t *given)
{
    uint8_t entry[ZK_ENTRY_BYTES] = {SET_FEATURES};
    uint64_t result = 0;
    entry[40] = FEATURE_NUMBER_OF_QUEUES;
    put_little(entry + 44, 4, (count - 1) | (uint64_t)(count - 1) << 16);
    int status = queue_do(admin, entry, NULL, 0, &result);
    uint32_t submission = (uint32_t)(result & 0xffff), completion = (uint32_t)(result >> 16 & 0xffff);
    *given = (submission < completion ? submission : completion) + 1;
    return status;
}

static void note(struct identity *it, uint64_t capabilities, const uint8_t *controller, const uint8_t *space)
{
    unsigned page = 12 + (capabilities >> 48 & 15), mdts = controller[CONTROLLER_MDTS];
    uint64_t capsule = little(controller + CONTROLLER_IOCCSZ, 4) * 16;
    uint16_t oncs = (uint16_t)little(controller + CONTROLLER_ONCS, 2);
    memcpy(it->model, controller + CONTROLLER_MODEL, sizeof it->model - 1);
    for (char *at = it->model; *at; at++) {
        *at = *at >= ' ' && *at <= '~' ? *at : '?';
    }
    for (size_t length = strlen(it->model); length && it->model[length - 1] == ' '; length--) {
        it->model[length - 1] = 0;
    }
    it->space = identified_by(space, controller);
    it->block = it->space.metadata || it->space.shift < 9 || it->space.shift > 16 ? 0 : 1u << it->space.shift;
    it->most = mdts && page + mdts < 32 ? 1u << (page + mdts) : UINT32_MAX;
    it->in_capsule = capsule > ZK_ENTRY_BYTES && capsule < 16 << 20 && !little(controller + CONTROLLER_ICDOFF, 2) ? (uint32_t)(capsule - ZK_ENTRY_BYTES) : 0;
    it->entries = (uint32_t)(capabilities & 0xffff) + 1;
    it->has_compare = oncs & HAS_COMPARE;
    it->has_uncorrectable = oncs & HAS_UNCORRECTABLE;
    it->has_dataset = oncs & HAS_DATASET;
    it->has_zeroes = oncs & HAS_ZEROES;
    it->has_pairs = controller[CONTROLLER_FUSES] & HAS_PAIRS;
}

/* Enables the controller, and waits as long as CAP says that this may take. */
static bool enable(struct queue *admin, uint64_t capabilities, uint64_t configuration)
{
    uint64_t status = 0, until = now() + ((capabilities >> 24 & 255) + 1) * 500000000ull;
    if (set_property(admin, PROPERTY_CC, configuration) != 0) {
        return false;
    }
    for (;;) {
        if (get_property(admin, PROPERTY_CSTS, &status) != 0 || status & CSTS_FATAL) {
            return false;
        }
        if (status & CSTS_READY) {
            return true;
        }
        if (now() > until) {
            return false;
        }
        nanosleep(&(struct timespec){.tv_nsec = 10000000}, NULL);
    }
}

/* What fails of an admin queue that is connected, or NULL. */
static const char *prepare(struct controller *controller, uint32_t namespace_id, unsigned queues)
{
    uint8_t own[PAGE_BYTES], space[PAGE_BYTES];
    uint64_t capabilities = 0;
    struct queue *admin = controller->admin;
    if (get_property(admin, PROPERTY_CAP, &capabilities) != 0) {
        return "it doesn't tell its capabilities";
    }
    controller->configuration = CC_ENABLE | CC_ENTRY_SIZES | (capabilities >> 48 & 15) << 7; /* pages of the smallest size */
    if (!enable(admin, capabilities, controller->configuration)) {
        return "it doesn't become ready";
    }
    if (identify(admin, IDENTIFY_CONTROLLER, 0, own) != 0) {
        return "it can't be identified";
    }
    if (identify(admin, IDENTIFY_NAMESPACE, namespace_id, space) != 0) {
        return "it has no namespace of that number";
    }
    note(&controller->identity, capabilities, own, space);
    if (ask_for_queues(admin, queues, &controller->identity.queues) != 0) {
        return "it gives no I/O queues";
    }
    return NULL;
}

/* Says why a queue failed, and ends it. */
static void give_up(struct queue *queue, const char *told, char *fault, size_t room)
{
    snprintf(fault, room, "%s", !queue ? "no memory" : *queue->fault ? queue->fault : told);
    if (queue) {
        queue_close(queue);
    }
}

bool controller_open(struct controller *controller, const struct connecting *asked, uint32_t namespace_id, unsigned queues, char *fault, size_t room)
{
    const char *told = "";
    *controller = (struct controller){.admin = queue_open(asked, ADMIN_DEPTH, ADMIN_IN_CAPSULE, PAGE_BYTES)};
    if (controller->admin && queue_connect(controller->admin, asked, 0, &controller->number)) {
        told = prepare(controller, namespace_id, queues);
        if (!told) {
            return true;
        }
    }
    give_up(controller->admin, told, fault, room);
    return false;
}

struct queue *controller_queue(const struct controller *controller, const struct connecting *asked, uint16_t number, unsigned depth, uint32_t data, char *fault, size_t room)
{
    uint16_t id = controller->number;
    uint32_t most = data > CONNECT_BYTES ? data : CONNECT_BYTES;
    struct queue *queue = queue_open(asked, depth, controller->identity.in_capsule, most);
    if (queue && queue_connect(queue, asked, number, &id)) {
        return queue;
    }
    give_up(queue, "", fault, room);
    return NULL;
}

void controller_close(struct controller *controller)
{
    uint64_t status = 0;
    if (set_property(controller->admin, PROPERTY_CC, controller->configuration | CC_SHUTDOWN) == 0) {
        get_property(controller->admin, PROPERTY_CSTS, &status);
    }
    queue_close(controller->admin);
}
