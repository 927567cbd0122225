#include "pdu.h"

#include <pthread.h>

/* CRC32C, eight bytes at a time: table n has the CRC of a byte with n zero bytes behind it. */
static uint32_t crc_tables[8][256];
static pthread_once_t crc_once = PTHREAD_ONCE_INIT;

static void make_crc_tables(void)
{
    for (uint32_t byte = 0; byte < 256; byte++) {
        uint32_t crc = byte;
        for (int bit = 0; bit < 8; bit++) {
            crc = crc >> 1 ^ (crc & 1 ? 0x82f63b78 : 0);
        }
        crc_tables[0][byte] = crc;
    }
    for (uint32_t byte = 0; byte < 256; byte++) {
        for (int table = 1; table < 8; table++) {
            uint32_t before = crc_tables[table - 1][byte];
            crc_tables[table][byte] = before >> 8 ^ crc_tables[0][before & 255];
        }
    }
}

uint32_t crc32c(uint32_t crc, const uint8_t *bytes, size_t count)
{
    pthread_once(&crc_once, make_crc_tables);
    crc = ~crc;
    for (; count >= 8; bytes += 8, count -= 8) {
        uint64_t eight = little(bytes, 8) ^ crc;
        crc = 0;
        for (int place = 0; place < 8; place++) {
            crc ^= crc_tables[7 - place][eight >> 8 * place & 255];
        }
    }
    for (; count; bytes++, count--) {
        crc = crc >> 8 ^ crc_tables[0][(crc ^ *bytes) & 255];
    }
    return ~crc;
}

/* What each type of PDU is like. */
static const struct shape {
    uint8_t header; /* bytes; 0 where there is no such type */
    bool has_digests, may_have_data, has_data_fields;
} SHAPES[] = {
    [PDU_ICREQ] = {.header = PDU_IC_BYTES},
    [PDU_ICRESP] = {.header = PDU_IC_BYTES},
    [PDU_H2C_TERM] = {.header = PDU_TERM_BYTES, .may_have_data = true},
    [PDU_C2H_TERM] = {.header = PDU_TERM_BYTES, .may_have_data = true},
    [PDU_COMMAND] = {.header = PDU_COMMAND_BYTES, .has_digests = true, .may_have_data = true},
    [PDU_RESPONSE] = {.header = PDU_RESPONSE_BYTES, .has_digests = true},
    [PDU_H2C_DATA] = {.header = PDU_DATA_BYTES, .has_digests = true, .may_have_data = true, .has_data_fields = true},
    [PDU_C2H_DATA] = {.header = PDU_DATA_BYTES, .has_digests = true, .may_have_data = true, .has_data_fields = true},
    [PDU_R2T] = {.header = PDU_R2T_BYTES, .has_digests = true},
};
enum { SHAPE_COUNT = sizeof SHAPES / sizeof *SHAPES };

/* Offsets of the common fields. */
enum { TYPE = 0, FLAGS = 1, HEADER_BYTES = 2, DATA_BEGIN = 3, PDU_BYTES = 4 };

static enum pdu_found bad(struct pdu_fault *fault, enum pdu_fatal status, uint32_t information, const char *told)
{
    *fault = (struct pdu_fault){status, information, told};
    return PDU_BAD;
}

/* Where a terminating PDU has the header that it is about: right behind its own. */
static bool is_term(enum pdu_type type)
{
    return type == PDU_H2C_TERM || type == PDU_C2H_TERM;
}

/* Checks the common fields, and writes all of `pdu` but what takes the bytes behind them. */
static enum pdu_found check_common(const uint8_t *bytes, const struct shape *shape, const struct pdu_terms *terms, struct pdu *pdu, struct pdu_fault *fault)
{
    enum pdu_type type = (enum pdu_type)bytes[TYPE];
    uint32_t header_digest = shape->has_digests && terms->header_digest ? PDU_DIGEST : 0, header = shape->header + header_digest;
    uint32_t whole = (uint32_t)little(bytes + PDU_BYTES, 4), begin = bytes[DATA_BEGIN];
    *pdu = (struct pdu){.type = type, .flags = bytes[FLAGS], .header = bytes, .bytes = whole};
    if (bytes[HEADER_BYTES] != shape->header) {
        return bad(fault, PDU_INVALID_FIELD, HEADER_BYTES, "a PDU with a header of a length that its type hasn't");
    }
    if (whole < header || (!shape->may_have_data && whole > header) || (is_term(type) && whole > header + PDU_TERM_REPEATS)) {
        return bad(fault, PDU_INVALID_FIELD, PDU_BYTES, "a PDU of a length that its type hasn't");
    }
    if (((bytes[FLAGS] & PDU_HAS_HEADER_DIGEST) != 0) != (header_digest != 0)) {
        return bad(fault, PDU_INVALID_FIELD, FLAGS, "a PDU whose flag of a header digest isn't as agreed");
    }
    if (whole == header) {
        return PDU_WHOLE;
    }
    uint32_t data_digest = shape->has_digests && terms->data_digest ? PDU_DIGEST : 0;
    begin = is_term(type) ? header : begin;
    if (begin < header || begin % 4 || whole < data_digest || begin >= whole - data_digest) {
        return bad(fault, PDU_INVALID_FIELD, DATA_BEGIN, "a PDU whose data begins where it can't");
    }
    if (((bytes[FLAGS] & PDU_HAS_DATA_DIGEST) != 0) != (data_digest != 0)) {
        return bad(fault, PDU_INVALID_FIELD, FLAGS, "a PDU whose flag of a data digest isn't as agreed");
    }
    pdu->data = bytes + begin;
    pdu->data_length = whole - data_digest - begin;
    return PDU_WHOLE;
}

enum pdu_found pdu_find(const uint8_t *bytes, size_t count, uint32_t types, const struct pdu_terms *terms, uint32_t most, struct pdu *pdu, struct pdu_fault *fault)
{
    if (count < PDU_COMMON) {
        return PDU_INCOMPLETE;
    }
    if (bytes[TYPE] >= SHAPE_COUNT || !SHAPES[bytes[TYPE]].header) {
        return bad(fault, PDU_INVALID_FIELD, TYPE, "a PDU of an unknown type");
    }
    if (!(types >> bytes[TYPE] & 1)) {
        return bad(fault, PDU_SEQUENCE_ERROR, 0, "a PDU of a type that isn't due");
    }
    const struct shape *shape = &SHAPES[bytes[TYPE]];
    struct pdu found;
    if (check_common(bytes, shape, terms, &found, fault) == PDU_BAD) {
        return PDU_BAD;
    }
    if (found.bytes > most) {
        return bad(fault, PDU_INVALID_FIELD, PDU_BYTES, "a PDU that is longer than any that is due");
    }
    if (count < found.bytes) {
        return PDU_INCOMPLETE;
    }
    if (found.flags & PDU_HAS_HEADER_DIGEST) {
        uint32_t digest = (uint32_t)little(bytes + shape->header, PDU_DIGEST);
        if (digest != crc32c(0, bytes, shape->header)) {
            return bad(fault, PDU_HEADER_DIGEST_ERROR, digest, "a PDU with a wrong header digest");
        }
    }
    if (shape->has_data_fields && little(bytes + DATA_LENGTH, 4) != found.data_length) {
        return bad(fault, PDU_INVALID_FIELD, DATA_LENGTH, "a PDU with more or less data than its field says");
    }
    if (found.data_length && (found.flags & PDU_HAS_DATA_DIGEST)) {
        found.data_spoiled = little(found.data + found.data_length, PDU_DIGEST) != crc32c(0, found.data, found.data_length);
    }
    *pdu = found;
    return PDU_WHOLE;
}

uint32_t pdu_begin(uint8_t *pdu, enum pdu_type type, uint8_t flags, const struct pdu_terms *terms, uint32_t data_length)
{
    const struct shape *shape = &SHAPES[type];
    bool header_digest = shape->has_digests && terms->header_digest, data_digest = shape->has_digests && terms->data_digest && data_length;
    uint32_t begin = shape->header + (header_digest ? (uint32_t)PDU_DIGEST : 0);
    if (data_length) {
        uint32_t step = 4 * (terms->alignment + 1u);
        begin = (begin + step - 1) / step * step;
    }
    memset(pdu, 0, begin);
    pdu[TYPE] = (uint8_t)type;
    pdu[FLAGS] = (uint8_t)(flags | (header_digest ? PDU_HAS_HEADER_DIGEST : 0) | (data_digest ? PDU_HAS_DATA_DIGEST : 0));
    pdu[HEADER_BYTES] = shape->header;
    pdu[DATA_BEGIN] = data_length ? (uint8_t)begin : 0;
    put_little(pdu + PDU_BYTES, 4, (uint64_t)begin + data_length + (data_digest ? PDU_DIGEST : 0));
    return begin;
}

void pdu_seal(uint8_t *pdu)
{
    if (pdu[FLAGS] & PDU_HAS_HEADER_DIGEST) {
        put_little(pdu + pdu[HEADER_BYTES], PDU_DIGEST, crc32c(0, pdu, pdu[HEADER_BYTES]));
    }
}

uint32_t pdu_data_digest(const uint8_t *pdu, const uint8_t *data, uint32_t data_length, uint8_t *digest)
{
    if (!(pdu[FLAGS] & PDU_HAS_DATA_DIGEST)) {
        return 0;
    }
    put_little(digest, PDU_DIGEST, crc32c(0, data, data_length));
    return PDU_DIGEST;
}

uint32_t pdu_terminate(uint8_t *pdu, enum pdu_type type, const struct pdu_fault *fault, const uint8_t *header, size_t count)
{
    uint32_t repeated = count < PDU_TERM_REPEATS ? (uint32_t)count : PDU_TERM_REPEATS, whole = PDU_TERM_BYTES + repeated;
    memset(pdu, 0, PDU_TERM_BYTES);
    pdu[TYPE] = (uint8_t)type;
    pdu[HEADER_BYTES] = PDU_TERM_BYTES;
    put_little(pdu + PDU_BYTES, 4, whole);
    put_little(pdu + TERM_STATUS, 2, fault->status);
    put_little(pdu + TERM_INFORMATION, 4, fault->information);
    memcpy(pdu + PDU_TERM_BYTES, header, repeated);
    return whole;
}
