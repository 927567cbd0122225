#include "target-pages.h"

#include <netdb.h>
#include <stdio.h>
#include <sys/socket.h>

#include "target-controller.h"
#include "target-media.h"

/* Offsets in the Identify Controller page that only a controller wants to know (Base Specification, "Identify Controller Data Structure"). */
enum {
    CONTROLLER_SERIAL = 4,
    CONTROLLER_FIRMWARE = 64,
    CONTROLLER_CMIC = 76,
    CONTROLLER_OAES = 92,
    CONTROLLER_CTRATT = 96,
    CONTROLLER_TYPE = 111,
    CONTROLLER_ACL = 258,
    CONTROLLER_AERL = 259,
    CONTROLLER_FRMW = 260,
    CONTROLLER_LPA = 261,
    CONTROLLER_WCTEMP = 266,
    CONTROLLER_CCTEMP = 268,
    CONTROLLER_KAS = 320,
    CONTROLLER_SQES = 512,
    CONTROLLER_CQES = 513,
    CONTROLLER_MAXCMD = 514,
    CONTROLLER_NN = 516,
    CONTROLLER_VWC = 525,
    CONTROLLER_SGLS = 536,
    CONTROLLER_SUBNQN = 768,
    CONTROLLER_IORCSZ = 1796,
    CONTROLLER_MSDBD = 1803
};
enum { TYPE_IO = 1, TYPE_DISCOVERY = 2 };

/* Log pages. */
enum { LOG_ERRORS = 0x01, LOG_HEALTH = 0x02, LOG_FIRMWARE = 0x03, LOG_CHANGED_NAMESPACES = 0x04, LOG_EFFECTS = 0x05, LOG_DISCOVERY = 0x70 };

enum { KELVIN = 300 };

/* Text in a field, with spaces behind. */
static void put_text(uint8_t *field, size_t room, const char *text)
{
    size_t length = strlen(text);
    memset(field, ' ', room);
    memcpy(field, text, length < room ? length : room);
}

static void identify_controller(const struct connection *connection, uint16_t id, uint8_t *page)
{
    put_text(page + CONTROLLER_SERIAL, 20, identity.serial);
    put_text(page + CONTROLLER_MODEL, 40, connection->is_discovery ? "Zalkvorn discovery" : "Zalkvorn");
    put_text(page + CONTROLLER_FIRMWARE, 8, "1");
    page[CONTROLLER_CMIC] = 2; /* several controllers */
    page[CONTROLLER_MDTS] = TRANSFER_SHIFT;
    put_little(page + CONTROLLER_CNTLID, 2, id);
    put_little(page + CONTROLLER_VERSION, 4, 0x00010400);
    put_little(page + CONTROLLER_OAES, 4, 1u << 8); /* of namespaces, whose list never changes: without it Linux asks for no events */
    put_little(page + CONTROLLER_CTRATT, 4, 1);     /* host identifiers of 16 bytes */
    page[CONTROLLER_TYPE] = connection->is_discovery ? TYPE_DISCOVERY : TYPE_IO;
    page[CONTROLLER_ACL] = 3;
    page[CONTROLLER_AERL] = MOST_EVENT_REQUESTS - 1;
    page[CONTROLLER_FRMW] = 1 | 1 << 1; /* a slot, which can't be written */
    page[CONTROLLER_LPA] = 1 << 1 | 1 << 2; /* the page of effects, and offsets */
    put_little(page + CONTROLLER_WCTEMP, 2, KELVIN + 50);
    put_little(page + CONTROLLER_CCTEMP, 2, KELVIN + 60);
    put_little(page + CONTROLLER_KAS, 2, 10);
    page[CONTROLLER_SQES] = 0x66;
    page[CONTROLLER_CQES] = 0x44;
    put_little(page + CONTROLLER_MAXCMD, 2, QUEUE_ENTRIES);
    put_little(page + CONTROLLER_SGLS, 4, 1 | 1u << 18 | 1u << 20); /* SGLs, longer than the data, with an offset in the capsule */
    snprintf((char *)page + CONTROLLER_SUBNQN, NQN_BYTES, "%s", connection->is_discovery ? DISCOVERY_SUBSYSTEM : identity.subsystem);
    put_little(page + CONTROLLER_IOCCSZ, 4, (ZK_ENTRY_BYTES + IO_IN_CAPSULE) / 16);
    put_little(page + CONTROLLER_IORCSZ, 4, ZK_COMPLETION_BYTES / 16);
    page[CONTROLLER_MSDBD] = 1;
    if (!connection->is_discovery) {
        put_little(page + CONTROLLER_NN, 4, 1);
        put_little(page + CONTROLLER_ONCS, 2, 1 | 1 << 1 | 1 << 2 | 1 << 3); /* Compare, Write Uncorrectable, Dataset Management, Write Zeroes */
        put_little(page + CONTROLLER_FUSES, 2, 1);
        page[CONTROLLER_VWC] = 3 << 1; /* no cache; Flush of all namespaces */
    }
    /* AWUN and ACWU are 0, which is a block, since the namespace has limits of its own. */
}

/* The UUID of the namespace, and that its command set is that of NVM. */
static void identify_descriptors(uint8_t *page)
{
    enum { UUID = 3, COMMAND_SET = 4, HEAD = 4 };
    page[0] = UUID;
    page[1] = sizeof identity.uuid;
    memcpy(page + HEAD, identity.uuid, sizeof identity.uuid);
    page[HEAD + sizeof identity.uuid] = COMMAND_SET;
    page[HEAD + sizeof identity.uuid + 1] = 1;
}

uint16_t identify_page(const struct connection *connection, const uint8_t *entry, uint8_t *page)
{
    uint32_t nsid = (uint32_t)little(entry + 4, 4);
    uint8_t what = entry[40];
    if (what == IDENTIFY_CONTROLLER) {
        identify_controller(connection, controller_id(connection), page);
        return STATUS_SUCCESS;
    }
    if (connection->is_discovery) {
        return STATUS_INVALID_FIELD;
    }
    switch (what) {
    case IDENTIFY_NAMESPACE_LIST:
        if (nsid >= 0xfffffffe) {
            return STATUS_INVALID_NAMESPACE;
        }
        put_little(page, 4, nsid == 0);
        return STATUS_SUCCESS;
    case IDENTIFY_NAMESPACE:
    case IDENTIFY_DESCRIPTORS:
        if (nsid != 1) {
            return STATUS_INVALID_NAMESPACE;
        }
        if (what == IDENTIFY_NAMESPACE) {
            memcpy(page, media_page(), PAGE_BYTES);
        } else {
            identify_descriptors(page);
        }
        return STATUS_SUCCESS;
    default:
        return STATUS_INVALID_FIELD;
    }
}

/* The subsystem, at the address to which the host has connected. */
static void discovery_page(const struct connection *connection, uint8_t *whole)
{
    enum { RECORD = 1024, TCP = 3, IPV4 = 1, IPV6 = 2, NVM_SUBSYSTEM = 2, MAY_HAVE_NO_FLOW_CONTROL = 4, ADMIN_ENTRIES = 32 };
    struct sockaddr_storage here = {0};
    socklen_t length = sizeof here;
    char address[256] = "", service[32] = "";
    getsockname(connection->socket, (struct sockaddr *)&here, &length);
    getnameinfo((struct sockaddr *)&here, length, address, sizeof address, service, sizeof service, NI_NUMERICHOST | NI_NUMERICSERV);
    put_little(whole, 8, 1);     /* its generation */
    put_little(whole + 8, 8, 1); /* records */
    uint8_t *record = whole + RECORD;
    record[0] = TCP;
    record[1] = here.ss_family == AF_INET6 ? IPV6 : IPV4;
    record[2] = NVM_SUBSYSTEM;
    record[3] = MAY_HAVE_NO_FLOW_CONTROL;
    put_little(record + 4, 2, 1); /* a port's number */
    put_little(record + 6, 2, ANY_CONTROLLER);
    put_little(record + 8, 2, ADMIN_ENTRIES);
    put_text(record + 32, 32, service);
    memcpy(record + 256, identity.subsystem, NQN_BYTES);
    put_text(record + 512, 256, address);
}

static void effects_page(uint8_t *whole)
{
    static const uint8_t admin[] = {GET_LOG_PAGE, IDENTIFY, ABORT, SET_FEATURES, GET_FEATURES, ASYNCHRONOUS_EVENT_REQUEST, KEEP_ALIVE};
    static const uint8_t io[] = {FLUSH, READ, COMPARE}, changing[] = {WRITE, WRITE_UNCORRECTABLE, WRITE_ZEROES, DATASET_MANAGEMENT};
    enum { ENTRY = 4, IO_COMMANDS = 1024, IS_SUPPORTED = 1, CHANGES_BLOCKS = 2 };
    for (size_t i = 0; i < sizeof admin; i++) {
        whole[admin[i] * ENTRY] = IS_SUPPORTED;
    }
    for (size_t i = 0; i < sizeof io; i++) {
        whole[IO_COMMANDS + io[i] * ENTRY] = IS_SUPPORTED;
    }
    for (size_t i = 0; i < sizeof changing; i++) {
        whole[IO_COMMANDS + changing[i] * ENTRY] = IS_SUPPORTED | CHANGES_BLOCKS;
    }
}

uint16_t log_page(const struct connection *connection, const uint8_t *entry, uint8_t *page, uint32_t length)
{
    uint8_t whole[PAGE_BYTES] = {0};
    uint64_t offset = little(entry + 48, 8);
    size_t bytes;
    switch (connection->is_discovery ? entry[40] == LOG_DISCOVERY ? LOG_DISCOVERY : 0 : entry[40] == LOG_DISCOVERY ? 0 : entry[40]) {
    case LOG_ERRORS: /* one place, and no error */
        bytes = 64;
        break;
    case LOG_HEALTH: /* all is well, and nothing is counted */
        put_little(whole + 1, 2, KELVIN);
        whole[3] = 100; /* percent of what is spare, and when that is too little */
        whole[4] = 10;
        bytes = 512;
        break;
    case LOG_FIRMWARE:
        whole[0] = 1; /* the slot in use, and what is in it */
        put_text(whole + 8, 8, "1");
        bytes = 512;
        break;
    case LOG_CHANGED_NAMESPACES: /* none */
        bytes = PAGE_BYTES;
        break;
    case LOG_EFFECTS:
        effects_page(whole);
        bytes = PAGE_BYTES;
        break;
    case LOG_DISCOVERY:
        discovery_page(connection, whole);
        bytes = 2048;
        break;
    default:
        return STATUS_INVALID_LOG_PAGE;
    }
    if (offset > bytes || offset % 4) {
        return STATUS_INVALID_FIELD;
    }
    memcpy(page, whole + offset, length < bytes - offset ? length : bytes - offset);
    return STATUS_SUCCESS;
}
