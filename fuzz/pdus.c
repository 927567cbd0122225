/* PDUs of NVMe/TCP in bytes of any kind. An input's first two bytes are the terms of the connection and which types are due, and the others what came. What is found lies in
 * the bytes, whichever part of them came first, and a PDU that isn't whole or is bad by a part of its bytes stays so. */
#include <sanitizer/asan_interface.h>
#include <stdio.h>
#include <stdlib.h>
#include <string.h>

#include "nvme-tcp/pdu.h"

enum { MOST = 1 << 16, HEADER_DIGEST = 1, DATA_DIGEST = 2, EACH = PDU_TERM_BYTES + 2 * PDU_DIGEST };

static void must(bool it, const char *what)
{
    if (!it) {
        fprintf(stderr, "not so: %s\n", what);
        abort();
    }
}

/* What is found at the front of the first `count` bytes. */
static enum pdu_found found_in(const uint8_t *bytes, size_t count, uint32_t types, const struct pdu_terms *terms, uint32_t *whole)
{
    struct pdu pdu;
    struct pdu_fault fault;
    enum pdu_found found = pdu_find(bytes, count, types, terms, MOST, &pdu, &fault);
    if (found == PDU_WHOLE) {
        must(types >> pdu.type & 1, "its type is due");
        must(pdu.bytes <= count && pdu.header == bytes, "it lies in the bytes");
        must(pdu.data_length == 0 || (pdu.data >= bytes && pdu.data + pdu.data_length <= bytes + pdu.bytes), "its data lies in it");
        *whole = pdu.bytes;
    }
    if (found == PDU_BAD) {
        uint8_t term[PDU_TERM_BYTES + PDU_TERM_REPEATS];
        uint32_t length = pdu_terminate(term, PDU_H2C_TERM, &fault, bytes, count);
        must(length >= PDU_TERM_BYTES && length <= sizeof term, "a terminating PDU has room");
        struct pdu_terms none = { 0 };
        must(pdu_find(term, length, 1 << PDU_H2C_TERM, &none, sizeof term, &pdu, &fault) == PDU_WHOLE, "a terminating PDU is found");
    }
    return found;
}

int LLVMFuzzerTestOneInput(const uint8_t *bytes, size_t size)
{
    if (size < 2)
        return 0;
    struct pdu_terms terms = { bytes[0] & HEADER_DIGEST, bytes[0] & DATA_DIGEST, (bytes[0] >> 2) & 31 };
    uint32_t types = bytes[1] ? (uint32_t)bytes[1] << 2 | (bytes[1] & 3) : 0x3ff;
    bytes += 2;
    size -= 2;
    /* A copy that begins at an odd address. Of it the sanitizer lets be read what is said to have come, to the byte. */
    uint8_t *own = malloc(size + 1), *at = own + 1;
    if (!own)
        abort();
    memcpy(at, bytes, size);
    size_t step = 1;
    for (size_t i = 0; i < size; i++)
        step += bytes[i];
    step = 1 + step % 32;
    for (int count = 0; size > 0 && count < 64; count++) {
        uint32_t whole = 0, other = 0;
        enum pdu_found found = found_in(at, size, types, &terms, &whole);
        ASAN_POISON_MEMORY_REGION(at, size);
        /* Each part of the shorter headers, and of the others as many as the bytes say. */
        size_t end = size < 2 * PDU_MOST_HEADER ? size : 2 * PDU_MOST_HEADER;
        for (size_t part = 0; part < end; part += part < EACH ? 1 : step) {
            ASAN_UNPOISON_MEMORY_REGION(at, part);
            enum pdu_found early = found_in(at, part, types, &terms, &other);
            must(early == PDU_INCOMPLETE || (early == PDU_BAD && found == PDU_BAD) || (early == PDU_WHOLE && other == whole && part >= whole), "a part says nothing else than the whole");
        }
        ASAN_UNPOISON_MEMORY_REGION(at, size);
        if (found != PDU_WHOLE)
            break;
        at += whole;
        size -= whole;
    }
    free(own);
    return 0;
}
