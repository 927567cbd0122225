/* What a host and a controller say to each other by NVMe over TCP beside the I/O commands of entries.h: admin commands, the commands, properties
   and pages of NVMe over Fabrics, by their numbers and offsets in the Base Specification. */
#ifndef NVME_TCP_H
#define NVME_TCP_H

#include "../entries.h"

enum { FLUSH = 0x00 };

/* Admin commands. */
enum {
    GET_LOG_PAGE = 0x02,
    IDENTIFY = 0x06,
    ABORT = 0x08,
    SET_FEATURES = 0x09,
    GET_FEATURES = 0x0a,
    ASYNCHRONOUS_EVENT_REQUEST = 0x0c,
    KEEP_ALIVE = 0x18,
    FABRICS = 0x7f
};

/* Fabrics commands, in byte 4 of an entry whose opcode is FABRICS. */
enum { PROPERTY_SET = 0x00, CONNECT = 0x01, PROPERTY_GET = 0x04 };

/* Properties by their offsets, and the bits that are used of Controller Configuration and Controller Status. */
enum { PROPERTY_CAP = 0x00, PROPERTY_VS = 0x08, PROPERTY_CC = 0x14, PROPERTY_CSTS = 0x1c };
enum { CC_ENABLE = 1, CC_SHUTDOWN = 1 << 14, CC_SHUTDOWNS = 3 << 14, CC_ENTRY_SIZES = 6 << 16 | 4 << 20, CSTS_READY = 1, CSTS_FATAL = 2, CSTS_SHUT_DOWN = 2 << 2 };

/* What Identify is asked for, in its byte 40 (CNS), and features, in byte 40 (FID). */
enum { IDENTIFY_NAMESPACE = 0, IDENTIFY_CONTROLLER = 1, IDENTIFY_NAMESPACE_LIST = 2, IDENTIFY_DESCRIPTORS = 3 };
enum { FEATURE_NUMBER_OF_QUEUES = 7 };

/* The Identify Controller page by offsets. NVMe over Fabrics has the last two. */
enum {
    CONTROLLER_MODEL = 24, /* 40 bytes of text */
    CONTROLLER_MDTS = 77,
    CONTROLLER_CNTLID = 78,
    CONTROLLER_VERSION = 80,
    CONTROLLER_ONCS = 520,
    CONTROLLER_FUSES = 522,
    CONTROLLER_IOCCSZ = 1792,
    CONTROLLER_ICDOFF = 1800
};

/* The Identify Namespace page by offsets, beside what identify.h takes from it. */
enum {
    NAMESPACE_NSZE = 0,
    NAMESPACE_DLFEAT = 33, /* bits 2:0: what a deallocated block reads as; 1 is zero bytes */
    NAMESPACE_LBAF = 128   /* 4 bytes each: metadata in 2, the shift of a block's size, relative performance */
};

/* The data of Connect. */
enum { CONNECT_BYTES = 1024, CONNECT_HOST_ID = 0, CONNECT_CNTLID = 16, CONNECT_SUBSYSTEM = 256, CONNECT_HOST = 512, NQN_BYTES = 256 };
enum { ANY_CONTROLLER = 0xffff };

enum { PAGE_BYTES = 4096, ADMIN_IN_CAPSULE = 8192 };

/* Byte 1 of an entry, beside FUSE: data is described by an SGL. The SGL is bytes 24 to 39, its length bytes 32 to 35, its type byte 39: in the
   capsule, or by Transport, which is R2T and C2HData. */
enum { ENTRY_BY_SGL = 0x40, SGL_AT = 24, SGL_LENGTH = 32, SGL_TYPE = 39, SGL_IN_CAPSULE = 0x01, SGL_TRANSPORT = 0x5a };

/* The subsystem that zalkvorn-target has, and zalkvorn-host asks for, where no other is named. */
#define DEFAULT_SUBSYSTEM "nqn.2026-11.org.zalkvorn:one"

/* Which way a command's data goes: the low bits of its opcode, or of its type where it is a Fabrics command. */
enum { NO_DATA = 0, HOST_TO_CONTROLLER = 1, CONTROLLER_TO_HOST = 2 };

static inline unsigned data_direction(const uint8_t *entry)
{
    return (entry[0] == FABRICS ? entry[4] : entry[0]) & 3;
}

#endif
