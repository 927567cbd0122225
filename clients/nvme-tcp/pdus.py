"""PDUs of NVMe over TCP as bytes, in Python: for the controllers of the tests and for captures. pdu.h has the same in C."""

import re
from dataclasses import dataclass
from struct import pack_into, unpack_from

ICREQ, ICRESP, H2C_TERM, C2H_TERM, COMMAND, RESPONSE, H2C_DATA, C2H_DATA, R2T = 0, 1, 2, 3, 4, 5, 6, 7, 9
HEADERS = {ICREQ: 128, ICRESP: 128, H2C_TERM: 24, C2H_TERM: 24, COMMAND: 72, RESPONSE: 24, H2C_DATA: 24, C2H_DATA: 24, R2T: 24}
HAS_HEADER_DIGEST, HAS_DATA_DIGEST, LAST, SUCCESS = 1, 2, 4, 8

# Opcodes: I/O, admin and Fabrics commands.
FLUSH, WRITE, READ, UNCORRECTABLE, COMPARE, ZEROES, DATASET = 0x00, 0x01, 0x02, 0x04, 0x05, 0x08, 0x09
GET_LOG_PAGE, IDENTIFY, SET_FEATURES, GET_FEATURES, KEEP_ALIVE, FABRICS = 0x02, 0x06, 0x09, 0x0A, 0x18, 0x7F
PROPERTY_SET, CONNECT, PROPERTY_GET = 0x00, 0x01, 0x04
FIRST, SECOND = 1, 2


def crc_table():
    table = []
    for byte in range(256):
        for _ in range(8):
            byte = byte >> 1 ^ (0x82F63B78 if byte & 1 else 0)
        table.append(byte)
    return table


CRC = crc_table()


def crc32c(data):
    crc = 0xFFFFFFFF
    for byte in data:
        crc = crc >> 8 ^ CRC[(crc ^ byte) & 255]
    return crc ^ 0xFFFFFFFF


@dataclass
class Terms:
    """What ICReq and ICResp agreed on."""

    header_digest: bool = False
    data_digest: bool = False

    def header_bytes(self, kind):
        return HEADERS[kind] + (4 if self.header_digest and kind in (COMMAND, RESPONSE, H2C_DATA, C2H_DATA, R2T) else 0)


def spelled(kind, fields=b"", data=b"", flags=0, terms=Terms()):
    """A PDU, whose header has `fields` behind the common ones."""
    header, begin = HEADERS[kind], terms.header_bytes(kind)
    has_data_digest = bool(data) and terms.data_digest and kind in (COMMAND, H2C_DATA, C2H_DATA)
    pdu = bytearray(begin)
    flags |= (HAS_HEADER_DIGEST if begin > header else 0) | (HAS_DATA_DIGEST if has_data_digest else 0)
    pack_into("<BBBBI", pdu, 0, kind, flags, header, begin if data else 0, begin + len(data) + 4 * has_data_digest)
    pdu[8 : 8 + len(fields)] = fields
    if begin > header:
        pack_into("<I", pdu, header, crc32c(pdu[:header]))
    return bytes(pdu) + data + (crc32c(data).to_bytes(4, "little") if has_data_digest else b"")


class Wrong(Exception):
    """Bytes that are no PDU."""


def common(stream, at, terms):
    """The type, the flags, where data begins and ends, and where the PDU ends, of that whose eight common bytes are there."""
    kind, flags, header, begin, length = unpack_from("<BBBBI", stream, at)
    if kind not in HEADERS or header != HEADERS[kind]:
        raise Wrong(f"a PDU of type {kind} with a header of {header} bytes")
    least = terms.header_bytes(kind)
    digest = 4 if flags & HAS_DATA_DIGEST and length > least else 0
    begin = begin if length > least else length
    if kind in (H2C_TERM, C2H_TERM):
        begin = header
    if length < least or not least <= begin <= length - digest:
        raise Wrong(f"a PDU of type {kind} of {length} bytes, with data at {begin}")
    return kind, flags, at + begin, at + length - digest, at + length


def runs(data):
    """Data as in texts: runs of equal bytes."""
    return ",".join(f"{it.end() - it.start()}*{data[it.start()]:02x}" for it in re.finditer(rb"(.)\1*", data, re.S))
