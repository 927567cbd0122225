/* PDUs of NVMe over TCP as bytes (NVMe/TCP Transport Specification, "Transport Specific Content"): a whole one is found and checked in what a
   connection has brought, and one is written. Nothing here sends, receives, waits or takes memory. */
#ifndef PDU_H
#define PDU_H

#include "nvme_tcp.h"

enum pdu_type {
    PDU_ICREQ = 0x00,
    PDU_ICRESP = 0x01,
    PDU_H2C_TERM = 0x02,
    PDU_C2H_TERM = 0x03,
    PDU_COMMAND = 0x04,
    PDU_RESPONSE = 0x05,
    PDU_H2C_DATA = 0x06,
    PDU_C2H_DATA = 0x07,
    PDU_R2T = 0x09
};

/* The bytes of headers, without digests. */
enum { PDU_COMMON = 8, PDU_IC_BYTES = 128, PDU_TERM_BYTES = 24, PDU_COMMAND_BYTES = 72, PDU_RESPONSE_BYTES = 24, PDU_DATA_BYTES = 24, PDU_R2T_BYTES = 24 };
/* The most bytes of a header that a terminating PDU repeats, and of a whole header with its digest. */
enum { PDU_TERM_REPEATS = 128, PDU_MOST_HEADER = 128 + 4, PDU_DIGEST = 4 };

/* Flags. The last data of a command, or of an R2T; and, of C2HData, that it succeeded and no response follows. */
enum { PDU_HAS_HEADER_DIGEST = 1, PDU_HAS_DATA_DIGEST = 2, PDU_LAST = 4, PDU_SUCCESS = 8 };

/* Fields behind the common ones, by their offsets from the front of the header. */
enum { IC_VERSION = 8, IC_ALIGNMENT = 10, IC_DIGESTS = 11, IC_MAXR2T = 12, IC_MAXH2CDATA = 12 }; /* ICReq has MAXR2T, ICResp MAXH2CDATA */
enum { COMMAND_ENTRY = 8, RESPONSE_COMPLETION = 8 };
enum { DATA_CID = 8, DATA_TAG = 10, DATA_OFFSET = 12, DATA_LENGTH = 16 }; /* also of R2T */
enum { TERM_STATUS = 8, TERM_INFORMATION = 10 };

/* Fatal error statuses of a terminating PDU. */
enum pdu_fatal {
    PDU_INVALID_FIELD = 1, /* the information is the field's offset in the header */
    PDU_SEQUENCE_ERROR = 2,
    PDU_HEADER_DIGEST_ERROR = 3, /* the information is the digest that came */
    PDU_DATA_OUT_OF_RANGE = 4,
    PDU_LIMIT_EXCEEDED = 5,
    PDU_UNSUPPORTED_PARAMETER = 6 /* the information is the parameter's offset in the header */
};

/* What ICReq and ICResp agreed on, for one direction. All 0 before. */
struct pdu_terms {
    bool header_digest, data_digest;
    uint8_t alignment; /* data begins at multiples of 4 * (alignment + 1) bytes; 0 to 31 */
};

/* A whole PDU, in the bytes in which it was found. */
struct pdu {
    enum pdu_type type;
    uint8_t flags;
    const uint8_t *header; /* as many bytes as its type has */
    const uint8_t *data;   /* of no use where data_length is 0 */
    uint32_t data_length;
    uint32_t bytes;        /* all of it, with padding and digests */
    bool data_spoiled;     /* its data isn't what the data digest is of */
};

/* Why a connection has to end. */
struct pdu_fault {
    enum pdu_fatal status;
    uint32_t information;
    const char *told; /* in words */
};

enum pdu_found { PDU_INCOMPLETE, PDU_WHOLE, PDU_BAD };

/* Finds the PDU at the front of `count` bytes. PDU_INCOMPLETE: more bytes are needed, `pdu` isn't written. PDU_WHOLE: `pdu` is written; its type is one
   of those in `types` (a bit each, 1 << type), its lengths agree with each other, its header digest is right, and data of H2CData and C2HData is as long as its field says.
   PDU_BAD: `fault` is written, and the bytes are of no more use. A PDU of more than `most` bytes is bad as soon as its first 8 bytes are there. */
enum pdu_found pdu_find(const uint8_t *bytes, size_t count, uint32_t types, const struct pdu_terms *terms, uint32_t most, struct pdu *pdu, struct pdu_fault *fault);

/* Begins a PDU that has `data_length` bytes of data: writes the common fields, and 0 to the rest of the header and to what is before the data. Gives the offset
   at which data begins, and where there is none the bytes of the PDU; PDU_MOST_HEADER bytes and 128 of padding always suffice. TERM PDUs aren't begun by this. */
uint32_t pdu_begin(uint8_t *pdu, enum pdu_type type, uint8_t flags, const struct pdu_terms *terms, uint32_t data_length);

/* Writes the header digest, if there is one, once the fields of the header have their values. */
void pdu_seal(uint8_t *pdu);

/* The bytes that follow the data of a PDU that was begun, 0 or PDU_DIGEST; they are written to `digest`. */
uint32_t pdu_data_digest(const uint8_t *pdu, const uint8_t *data, uint32_t data_length, uint8_t *digest);

/* Writes a terminating PDU of this type for a fault in the PDU whose header begins at `header`, of which `count` bytes came. Gives its bytes, at most
   PDU_TERM_BYTES + PDU_TERM_REPEATS. */
uint32_t pdu_terminate(uint8_t *pdu, enum pdu_type type, const struct pdu_fault *fault, const uint8_t *header, size_t count);

/* CRC32C (Castagnoli) of more bytes, after bytes of which it is `crc`; 0 before the first. */
uint32_t crc32c(uint32_t crc, const uint8_t *bytes, size_t count);

#endif
