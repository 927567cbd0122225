#include "target-controller.h"

#include <pthread.h>
#include <sys/socket.h>

#include "target-media.h"

/* A controller. Its queues are by number; that of its admin queue is 0. */
struct controller {
    uint16_t id; /* 0 where there is none */
    bool is_discovery;
    uint32_t configuration, status;
    unsigned granted, used; /* I/O queues: how many it may have, 0 where it didn't ask, and how many it has */
    uint8_t host[16 + NQN_BYTES]; /* the host's identifier and NQN */
    struct connection *queues[ZK_MOST_PORTS + 1];
};

/* Offsets in the entry and the data of Connect, and where the result says that a parameter is wrong in its data. */
enum { CONNECT_RECORD_FORMAT = 40, CONNECT_QUEUE = 42, CONNECT_ENTRIES = 44, CONNECT_ATTRIBUTES = 46, CONNECT_KEEP_ALIVE = 48, WRONG_IN_DATA = 1 << 16 };
enum { NO_FLOW_CONTROL = 4 };
/* Offsets in the entries of Property Get and Property Set. */
enum { PROPERTY_SIZE = 40, PROPERTY_OFFSET = 44, PROPERTY_VALUE = 48, EIGHT_BYTES = 1 };
/* The value of CAP: queues with MQES + 1 entries, contiguous; ready within TO * 500 ms; the NVM command set. */
#define CAPABILITIES ((uint64_t)(QUEUE_ENTRIES - 1) | 1u << 16 | 20u << 24 | 1ull << 37)
enum { VERSION_1_4 = 0x00010400 };
/* Of CC: the command set, the page size and the arbitration, of which there is one each, and the sizes of entries. */
enum { CC_ONLY_ZERO = 0x3ff0, CC_SIZES = 0xff << 16 };

struct identity identity;

static pthread_mutex_t lock = PTHREAD_MUTEX_INITIALIZER; /* of all below, and of the ports */
static struct controller controllers[MOST_CONTROLLERS];
static uint16_t last_id;
static unsigned ports_used;

static struct controller *controller_of_id(uint16_t id)
{
    for (struct controller *it = controllers; id && it < controllers + MOST_CONTROLLERS; it++) {
        if (it->id == id) {
            return it;
        }
    }
    return NULL;
}

/* A number that no controller has, of those that a dynamic controller may have. */
static uint16_t new_id(void)
{
    do {
        last_id = (uint16_t)(last_id % 0xffef + 1);
    } while (controller_of_id(last_id));
    return last_id;
}

static struct controller *free_place(void)
{
    for (struct controller *it = controllers; it < controllers + MOST_CONTROLLERS; it++) {
        if (!it->id) {
            return it;
        }
    }
    return NULL;
}

static uint16_t wrong_parameter(uint64_t *result, uint32_t where)
{
    *result = where;
    return STATUS_CONNECT_PARAMETERS;
}

/* Makes a controller for an admin queue. */
static uint16_t make(struct connection *connection, const uint8_t *data, uint64_t *result)
{
    struct controller *controller = free_place();
    if (little(data + CONNECT_CNTLID, 2) != ANY_CONTROLLER) {
        return wrong_parameter(result, WRONG_IN_DATA | CONNECT_CNTLID);
    }
    if (!controller || (!connection->is_discovery && ports_used == ZK_MOST_PORTS)) {
        return STATUS_CONNECT_BUSY;
    }
    *controller = (struct controller){.id = new_id(), .is_discovery = connection->is_discovery};
    memcpy(controller->host, data + CONNECT_HOST_ID, 16);
    memcpy(controller->host + 16, data + CONNECT_HOST, NQN_BYTES);
    connection->controller = controller;
    return STATUS_SUCCESS;
}

/* Joins an I/O queue to its controller, which has to be ready, and gives it a port. */
static uint16_t join(struct connection *connection, uint16_t number, const uint8_t *data, uint64_t *result)
{
    struct controller *controller = controller_of_id((uint16_t)little(data + CONNECT_CNTLID, 2));
    if (!controller || controller->is_discovery != connection->is_discovery || controller->is_discovery) {
        return wrong_parameter(result, WRONG_IN_DATA | CONNECT_CNTLID);
    }
    if (memcmp(controller->host, data + CONNECT_HOST_ID, 16) != 0) {
        return wrong_parameter(result, WRONG_IN_DATA | CONNECT_HOST_ID);
    }
    if (memcmp(controller->host + 16, data + CONNECT_HOST, NQN_BYTES) != 0) {
        return wrong_parameter(result, WRONG_IN_DATA | CONNECT_HOST);
    }
    if (!(controller->configuration & CC_ENABLE) || !(controller->status & CSTS_READY)) {
        return STATUS_SEQUENCE_ERROR;
    }
    if (number > (controller->granted ? controller->granted : ZK_MOST_PORTS) || controller->queues[number]) {
        return wrong_parameter(result, CONNECT_QUEUE);
    }
    connection->port = media_take_port();
    if (!connection->port) {
        return STATUS_CONNECT_BUSY;
    }
    ports_used++;
    controller->used++;
    connection->controller = controller;
    return STATUS_SUCCESS;
}

uint16_t controller_connect(struct connection *connection, const uint8_t *entry, const uint8_t *data, uint64_t *result)
{
    uint16_t number = (uint16_t)little(entry + CONNECT_QUEUE, 2), less_one = (uint16_t)little(entry + CONNECT_ENTRIES, 2);
    const char *subsystem = (const char *)data + CONNECT_SUBSYSTEM;
    if (connection->controller) {
        return STATUS_SEQUENCE_ERROR;
    }
    if (little(entry + CONNECT_RECORD_FORMAT, 2) != 0) {
        return STATUS_CONNECT_FORMAT;
    }
    if (less_one == 0 || less_one >= QUEUE_ENTRIES) {
        return wrong_parameter(result, CONNECT_ENTRIES);
    }
    connection->is_discovery = strncmp(subsystem, DISCOVERY_SUBSYSTEM, NQN_BYTES) == 0;
    if (!connection->is_discovery && strncmp(subsystem, identity.subsystem, NQN_BYTES) != 0) {
        return wrong_parameter(result, WRONG_IN_DATA | CONNECT_SUBSYSTEM);
    }
    if (!memchr(data + CONNECT_HOST, 0, NQN_BYTES)) {
        return wrong_parameter(result, WRONG_IN_DATA | CONNECT_HOST);
    }
    pthread_mutex_lock(&lock);
    uint16_t status = number ? join(connection, number, data, result) : make(connection, data, result);
    if (status == STATUS_SUCCESS) {
        connection->number = number;
        connection->entries = (uint16_t)(less_one + 1);
        connection->head = 1; /* Connect was the first entry */
        connection->has_flow_control = !(entry[CONNECT_ATTRIBUTES] & NO_FLOW_CONTROL);
        connection->keep_alive = number ? 0 : (uint32_t)little(entry + CONNECT_KEEP_ALIVE, 4);
        connection->controller->queues[number] = connection;
        *result = connection->controller->id;
    }
    pthread_mutex_unlock(&lock);
    return status;
}

/* Has the threads of a controller's I/O queues end them. */
static void shut_io_queues(struct controller *controller)
{
    for (size_t number = 1; number <= ZK_MOST_PORTS; number++) {
        if (controller->queues[number]) {
            shutdown(controller->queues[number]->socket, SHUT_RDWR);
        }
    }
}

void controller_leave(struct connection *connection)
{
    pthread_mutex_lock(&lock);
    struct controller *controller = connection->controller;
    if (connection->port) {
        media_give_port(connection->port);
        ports_used--;
        connection->port = NULL;
    }
    /* An I/O queue can outlive its controller, whose place another may have by then. */
    if (controller && controller->queues[connection->number] == connection) {
        controller->queues[connection->number] = NULL;
        if (connection->number) {
            controller->used--;
        } else {
            shut_io_queues(controller);
            *controller = (struct controller){0};
        }
    }
    connection->controller = NULL;
    pthread_mutex_unlock(&lock);
}

bool controller_is_ready(const struct connection *connection)
{
    pthread_mutex_lock(&lock);
    const struct controller *controller = connection->controller;
    bool is_ready = controller && controller->queues[connection->number] == connection && (controller->status & CSTS_READY);
    pthread_mutex_unlock(&lock);
    return is_ready;
}

uint16_t controller_id(const struct connection *connection)
{
    pthread_mutex_lock(&lock);
    uint16_t id = connection->controller->id;
    pthread_mutex_unlock(&lock);
    return id;
}

uint16_t controller_get_property(const struct connection *connection, const uint8_t *entry, uint64_t *result)
{
    uint32_t offset = (uint32_t)little(entry + PROPERTY_OFFSET, 4);
    bool has_eight_bytes = entry[PROPERTY_SIZE] & EIGHT_BYTES;
    uint16_t status = has_eight_bytes == (offset == PROPERTY_CAP) ? STATUS_SUCCESS : STATUS_INVALID_FIELD;
    pthread_mutex_lock(&lock);
    const struct controller *controller = connection->controller;
    switch (offset) {
    case PROPERTY_CAP:
        *result = CAPABILITIES;
        break;
    case PROPERTY_VS:
        *result = VERSION_1_4;
        break;
    case PROPERTY_CC:
        *result = controller->configuration;
        break;
    case PROPERTY_CSTS:
        /* Until its I/O queues have ended, a controller that is disabled isn't seen to be so: none of their commands is done afterwards. */
        *result = controller->status | (controller->used ? CSTS_READY : 0);
        break;
    default:
        status = STATUS_INVALID_FIELD;
    }
    pthread_mutex_unlock(&lock);
    *result = status == STATUS_SUCCESS ? *result : 0;
    return status;
}

uint16_t controller_set_property(struct connection *connection, const uint8_t *entry)
{
    uint32_t value = (uint32_t)little(entry + PROPERTY_VALUE, 4);
    if ((entry[PROPERTY_SIZE] & EIGHT_BYTES) || little(entry + PROPERTY_OFFSET, 4) != PROPERTY_CC) {
        return STATUS_INVALID_FIELD;
    }
    pthread_mutex_lock(&lock);
    struct controller *controller = connection->controller;
    bool was_enabled = controller->configuration & CC_ENABLE, is_enabled = value & CC_ENABLE;
    bool is_possible = !(value & CC_ONLY_ZERO) && (controller->is_discovery || (value & CC_SIZES) == CC_ENTRY_SIZES);
    controller->configuration = value;
    controller->status = value & CC_SHUTDOWN ? (controller->status & CSTS_READY) | CSTS_SHUT_DOWN : is_enabled ? is_possible ? CSTS_READY : CSTS_FATAL : 0;
    if (was_enabled && !is_enabled) {
        controller->granted = 0;
        shut_io_queues(controller);
        connection_drop_event_requests(connection);
    }
    pthread_mutex_unlock(&lock);
    return STATUS_SUCCESS;
}

uint16_t controller_grant_queues(struct connection *connection, unsigned asked, unsigned *granted)
{
    pthread_mutex_lock(&lock);
    struct controller *controller = connection->controller;
    unsigned most = ZK_MOST_PORTS - ports_used;
    uint16_t status = controller->used ? STATUS_SEQUENCE_ERROR : most ? STATUS_SUCCESS : STATUS_INTERNAL_ERROR;
    if (status == STATUS_SUCCESS) {
        controller->granted = *granted = asked < most ? asked : most;
    }
    pthread_mutex_unlock(&lock);
    return status;
}

unsigned controller_queues(const struct connection *connection)
{
    pthread_mutex_lock(&lock);
    unsigned granted = connection->controller->granted ? connection->controller->granted : ZK_MOST_PORTS;
    pthread_mutex_unlock(&lock);
    return granted;
}
