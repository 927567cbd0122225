#include "target-answer.h"

#include "target-media.h"

/* The bit of a completion that says not to repeat the command; the head of a queue that has none, in the answer to Connect. */
enum { DO_NOT_RETRY = 0x8000, NO_HEAD = 0xffff };

void respond(struct connection *it, const uint8_t *entry, uint16_t status, uint64_t result)
{
    bool is_connect = entry[0] == FABRICS && entry[4] == CONNECT;
    bool may_be_repeated = status == STATUS_SUCCESS || status == STATUS_INTERNAL_ERROR || status == STATUS_TRANSIENT_TRANSPORT_ERROR || status == STATUS_CONNECT_BUSY;
    uint8_t *pdu = it->out + it->out_end, *completion = pdu + RESPONSE_COMPLETION;
    it->out_end += pdu_begin(pdu, PDU_RESPONSE, 0, &it->sending, 0);
    put_little(completion, 8, result);
    put_little(completion + 8, 2, it->has_flow_control ? it->head : is_connect ? NO_HEAD : 0);
    put_little(completion + 10, 2, it->number);
    memcpy(completion + 12, entry + 2, 2);
    put_little(completion + 14, 2, (uint64_t)status << 1 | (may_be_repeated ? 0 : DO_NOT_RETRY));
    pdu_seal(pdu);
}

uint8_t *begin_data(struct connection *it, const uint8_t *entry, uint32_t length)
{
    uint8_t *pdu = it->out + it->out_end;
    uint32_t begin = pdu_begin(pdu, PDU_C2H_DATA, it->has_flow_control ? PDU_LAST : PDU_LAST | PDU_SUCCESS, &it->sending, length);
    memcpy(pdu + DATA_CID, entry + 2, 2);
    put_little(pdu + DATA_LENGTH, 4, length);
    pdu_seal(pdu);
    return pdu + begin;
}

void send_data(struct connection *it, const uint8_t *entry, const uint8_t *data, uint32_t length)
{
    uint8_t *pdu = it->out + it->out_end, *end = it->out + (data - it->out) + length;
    it->out_end = (size_t)(end - it->out) + pdu_data_digest(pdu, data, length, end);
    if (it->has_flow_control) {
        respond(it, entry, STATUS_SUCCESS, 0);
    }
}

void send_r2t(struct connection *it, const struct command *command)
{
    uint8_t *pdu = it->out + it->out_end;
    it->out_end += pdu_begin(pdu, PDU_R2T, 0, &it->sending, 0);
    memcpy(pdu + DATA_CID, command->entry + 2, 2);
    put_little(pdu + DATA_TAG, 2, (uint64_t)(command - it->commands));
    put_little(pdu + DATA_LENGTH, 4, command->length);
    pdu_seal(pdu);
}
