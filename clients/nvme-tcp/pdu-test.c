/* Holds pdu.c to what pdu.h says: CRC32C to the standard's examples, each PDU that is begun to what is found of it, cut at each byte, and any bytes to staying in their bounds
   (the sanitizers see that). Prints a line, or what isn't so, and ends with 1 then. */
#include <stdio.h>
#include <stdlib.h>

#include "pdu.h"

enum { MOST = 4096, ALL = 0x3ff, ROUNDS = 200000 };

static void hold(bool it, const char *what)
{
    if (!it) {
        fprintf(stderr, "pdu-test: not so: %s\n", what);
        exit(1);
    }
}

static uint32_t dice(void)
{
    static uint64_t state = 20261128;
    state ^= state << 13;
    state ^= state >> 7;
    state ^= state << 17;
    return (uint32_t)(state >> 32);
}

/* The examples of RFC 3720, B.4, and the usual one. */
static void hold_crc(void)
{
    uint8_t bytes[32];
    memset(bytes, 0, sizeof bytes);
    hold(crc32c(0, bytes, sizeof bytes) == 0x8a9136aa, "CRC32C of zeroes");
    memset(bytes, 0xff, sizeof bytes);
    hold(crc32c(0, bytes, sizeof bytes) == 0x62a8ab43, "CRC32C of ones");
    for (unsigned place = 0; place < sizeof bytes; place++) {
        bytes[place] = (uint8_t)place;
    }
    hold(crc32c(0, bytes, sizeof bytes) == 0x46dd794e, "CRC32C of rising bytes");
    hold(crc32c(0, (const uint8_t *)"123456789", 9) == 0xe3069283, "CRC32C of nine digits");
    hold(crc32c(crc32c(0, bytes, 5), bytes + 5, sizeof bytes - 5) == 0x46dd794e, "CRC32C in two parts");
}

/* A PDU with `length` bytes of data, as it is sent and as it is found. */
static void hold_pdu(enum pdu_type type, const struct pdu_terms *terms, uint32_t length)
{
    uint8_t bytes[MOST];
    struct pdu pdu;
    struct pdu_fault fault;
    memset(bytes, 0xee, sizeof bytes);
    uint32_t begin = pdu_begin(bytes, type, PDU_LAST, terms, length);
    if (type == PDU_H2C_DATA || type == PDU_C2H_DATA) {
        put_little(bytes + DATA_LENGTH, 4, length);
    }
    pdu_seal(bytes);
    for (uint32_t place = 0; place < length; place++) {
        bytes[begin + place] = (uint8_t)dice();
    }
    uint32_t behind = length ? pdu_data_digest(bytes, bytes + begin, length, bytes + begin + length) : 0, whole = begin + length + behind;
    hold(begin <= PDU_MOST_HEADER + 128 && (!length || begin % (4 * (terms->alignment + 1u)) == 0), "where data begins");
    hold(pdu_find(bytes, whole, 1u << type, terms, MOST, &pdu, &fault) == PDU_WHOLE, "a PDU that was begun is found");
    hold(pdu.type == type && pdu.bytes == whole && pdu.data_length == length && !pdu.data_spoiled && (!length || pdu.data == bytes + begin), "what is found of it");
    for (uint32_t count = 0; count < whole; count++) {
        hold(pdu_find(bytes, count, 1u << type, terms, MOST, &pdu, &fault) == PDU_INCOMPLETE, "a part of a PDU is one that isn't whole");
    }
    hold(pdu_find(bytes, whole, ALL & ~(1u << type), terms, MOST, &pdu, &fault) == PDU_BAD && fault.status == PDU_SEQUENCE_ERROR, "a PDU that isn't due");
    hold(whole < PDU_COMMON || pdu_find(bytes, PDU_COMMON, 1u << type, terms, whole - 1, &pdu, &fault) == PDU_BAD, "a PDU that is too long is known by its front");
    if (behind) {
        bytes[begin + dice() % length] ^= 1;
        hold(pdu_find(bytes, whole, 1u << type, terms, MOST, &pdu, &fault) == PDU_WHOLE && pdu.data_spoiled, "spoiled data");
    }
    if (terms->header_digest && type >= PDU_COMMAND) {
        bytes[20] ^= 4;
        hold(pdu_find(bytes, whole, 1u << type, terms, MOST, &pdu, &fault) == PDU_BAD, "a spoiled header");
    }
}

/* Any bytes, half of them with a front that some type has. What is found lies within them. */
static void hold_any(void)
{
    static const uint8_t headers[] = {128, 128, 24, 24, 72, 24, 24, 24, 0, 24};
    size_t count = dice() % 300;
    uint8_t *bytes = malloc(count + 1);
    for (size_t place = 0; bytes && place < count; place++) {
        bytes[place] = (uint8_t)dice();
    }
    if (bytes && count >= PDU_COMMON && dice() % 2) {
        bytes[0] %= sizeof headers;
        bytes[1] &= 15;
        bytes[2] = headers[bytes[0]];
        bytes[3] &= 0x7c;
        put_little(bytes + 4, 4, dice() % (count + 8));
    }
    struct pdu_terms terms = {dice() % 2, dice() % 2, 0};
    struct pdu pdu;
    struct pdu_fault fault;
    /* What is behind the bytes isn't theirs: they are given in a room of their own. */
    uint8_t *own = bytes && count ? malloc(count) : NULL;
    if (own) {
        memcpy(own, bytes, count);
        if (pdu_find(own, count, ALL, &terms, 400, &pdu, &fault) == PDU_WHOLE) {
            hold(pdu.bytes <= count && (!pdu.data_length || (pdu.data >= own && pdu.data + pdu.data_length <= own + pdu.bytes)), "what is found lies in the bytes");
            uint8_t term[PDU_TERM_BYTES + PDU_TERM_REPEATS];
            fault = (struct pdu_fault){PDU_INVALID_FIELD, 0, ""};
            uint32_t length = pdu_terminate(term, PDU_H2C_TERM, &fault, own, count);
            hold(pdu_find(term, length, 1 << PDU_H2C_TERM, &terms, sizeof term, &pdu, &fault) == PDU_WHOLE, "a terminating PDU is found");
        }
    }
    free(own);
    free(bytes);
}

int main(void)
{
    static const enum pdu_type with_data[] = {PDU_COMMAND, PDU_H2C_DATA, PDU_C2H_DATA}, without[] = {PDU_ICREQ, PDU_ICRESP, PDU_COMMAND, PDU_RESPONSE, PDU_R2T};
    unsigned count = 0;
    hold_crc();
    for (unsigned what = 0; what < 4 * 32; what++) {
        struct pdu_terms terms = {what & 1, what & 2, (uint8_t)(what / 4)};
        for (unsigned place = 0; place < sizeof without / sizeof *without; place++, count++) {
            hold_pdu(without[place], &terms, 0);
        }
        for (unsigned place = 0; place < sizeof with_data / sizeof *with_data; place++, count++) {
            hold_pdu(with_data[place], &terms, 1 + dice() % 600);
        }
    }
    for (unsigned round = 0; round < ROUNDS; round++) {
        hold_any();
    }
    printf("%u PDUs as they were begun, and %d rounds of any bytes\n", count, ROUNDS);
}
