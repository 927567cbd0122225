#include "target-admin.h"

#include "target-controller.h"
#include "target-media.h"
#include "target-pages.h"

enum { FEATURE_EVENTS = 0x0b, FEATURE_KEEP_ALIVE = 0x0f, SAVES = 1u << 31, SELECTS = 7 };
/* The result of Abort: the command wasn't aborted. */
enum { NOT_ABORTED = 1 };
/* A keep alive timer runs out that many milliseconds after its time, so that a host that is in time isn't too late. */
enum { GRACE = 1000 };

uint64_t admin_data_length(const uint8_t *entry)
{
    switch (entry[0]) {
    case FABRICS:
        return entry[4] == CONNECT ? CONNECT_BYTES : 0;
    case IDENTIFY:
        return PAGE_BYTES;
    case GET_LOG_PAGE:
        return (little(entry + 42, 4) + 1) * 4; /* NUMDL and NUMDU */
    default:
        return 0;
    }
}

/* Has the connection end when its host is silent for longer than it says. */
static void await_host(struct connection *connection)
{
    connection->deadline = connection->keep_alive ? now_in_ms() + connection->keep_alive + GRACE : 0;
}

static uint16_t connect(struct connection *connection, const uint8_t *entry, const uint8_t *data, uint64_t *result)
{
    uint16_t status = controller_connect(connection, entry, data, result);
    if (status == STATUS_SUCCESS) {
        await_host(connection);
    }
    return status;
}

static uint16_t fabrics(struct connection *connection, const uint8_t *entry, const uint8_t *data, uint64_t *result)
{
    if (entry[4] == CONNECT) {
        return connect(connection, entry, data, result);
    }
    if (!connection->controller) {
        return STATUS_SEQUENCE_ERROR;
    }
    if (connection->number) {
        return STATUS_INVALID_OPCODE;
    }
    switch (entry[4]) {
    case PROPERTY_GET:
        return controller_get_property(connection, entry, result);
    case PROPERTY_SET:
        return controller_set_property(connection, entry);
    default:
        return STATUS_INVALID_OPCODE;
    }
}

static uint16_t queues_feature(struct connection *connection, bool is_set, uint32_t value, uint64_t *result)
{
    unsigned submission = (value & 0xffff) + 1, completion = (value >> 16) + 1, queues;
    uint16_t status = STATUS_SUCCESS;
    if (!is_set) {
        queues = controller_queues(connection);
    } else if (submission > 0xffff || completion > 0xffff) {
        return STATUS_INVALID_FIELD;
    } else {
        status = controller_grant_queues(connection, submission < completion ? submission : completion, &queues);
    }
    *result = status == STATUS_SUCCESS && queues ? (queues - 1) * 0x10001ull : 0;
    return status;
}

static uint16_t feature(struct connection *connection, const uint8_t *entry, uint64_t *result)
{
    bool is_set = entry[0] == SET_FEATURES;
    uint32_t value = (uint32_t)little(entry + 44, 4);
    if (is_set && (little(entry + 40, 4) & SAVES)) {
        return STATUS_NOT_SAVEABLE;
    }
    if (!is_set && (entry[41] & SELECTS)) {
        return STATUS_INVALID_FIELD;
    }
    switch (entry[40]) {
    case FEATURE_NUMBER_OF_QUEUES:
        return connection->is_discovery ? STATUS_INVALID_FIELD : queues_feature(connection, is_set, value, result);
    case FEATURE_EVENTS: /* none of which ever comes */
        connection->events = is_set ? value : connection->events;
        *result = connection->events;
        return STATUS_SUCCESS;
    case FEATURE_KEEP_ALIVE:
        if (is_set) {
            connection->keep_alive = value;
            await_host(connection);
        }
        *result = connection->keep_alive;
        return STATUS_SUCCESS;
    default: /* that of a volatile write cache, too, which isn't there */
        return STATUS_INVALID_FIELD;
    }
}

struct answer administer(struct connection *connection, const uint8_t *entry, const uint8_t *data, uint8_t *page, uint32_t length)
{
    struct answer answer = {STATUS_SUCCESS, 0, false};
    if (entry[0] == FABRICS) {
        answer.status = fabrics(connection, entry, data, &answer.result);
        return answer;
    }
    if (!controller_is_ready(connection)) {
        answer.status = STATUS_SEQUENCE_ERROR;
        return answer;
    }
    switch (entry[0]) {
    case IDENTIFY:
        answer.status = identify_page(connection, entry, page);
        break;
    case GET_LOG_PAGE:
        answer.status = log_page(connection, entry, page, length);
        break;
    case SET_FEATURES:
    case GET_FEATURES:
        answer.status = feature(connection, entry, &answer.result);
        break;
    case KEEP_ALIVE:
        await_host(connection);
        break;
    case ABORT: /* a command is answered at once, unless it is the host that keeps it waiting */
        answer.result = NOT_ABORTED;
        break;
    case ASYNCHRONOUS_EVENT_REQUEST:
        answer.is_held = connection->event_requests < MOST_EVENT_REQUESTS;
        answer.status = answer.is_held ? STATUS_SUCCESS : STATUS_TOO_MANY_EVENT_REQUESTS;
        connection->event_requests += answer.is_held;
        break;
    default:
        answer.status = STATUS_INVALID_OPCODE;
    }
    return answer;
}
