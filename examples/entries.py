"""Host files as hosts spell them, by nvme/types.h of libnvme and the structs nvme_rw_command and nvme_dsm_cmd of Linux: what nvq lists of them, and which
bytes it assembles of that. Bytes that no field names may be any, and are 0 where they are written."""

NAME = "4e565131"


def spelled(text):
    """The bytes of digits, and of runs of one byte, as 32*ff."""
    runs = [piece.split("*") for piece in text.split()]
    return b"".join(bytes.fromhex(it[-1]) * (int(it[0]) if len(it) == 2 else 1) for it in runs)


# A file behind its name, its list, and the file of that list.
ENTRIES = [
    # A Read, a Write Zeroes and a Compare that is the first of a pair.
    ("0200020001000000 32*ff 10*00 14*ff", "read 0 1 cid=2", "0200020001000000 56*00"),
    (
        "0801b2a1f6e5d4c3 32*ff 0807060504030201 0300 14*ff",
        "zeroes 72623859790382856 4 first cid=41394 nsid=3285509622",
        "0801b2a1f6e5d4c3 32*00 0807060504030201 0300 14*00",
    ),
    (
        "0501020101000000 32*ff 0400000000000000 0300 14*ff 2048*41",
        "compare 4 4 2048*41 first cid=258",
        "0501020101000000 32*00 0400000000000000 0300 14*00 2048*41",
    ),
    # A Deallocate of three ranges, and the same without the bit.
    ("0900020001000000 32*ff 02 3*ff 04 19*ff 48*00", "dataset 0+0,0+0,0+0 deallocate cid=2", "0900020001000000 32*00 02 3*00 04 19*00 48*00"),
    ("0900020001000000 32*ff 02 3*ff 00 19*ff 48*00", "dataset 0+0,0+0,0+0 cid=2", "0900020001000000 32*00 02 3*00 00 19*00 48*00"),
    # One bit is Deallocate. Integral Dataset for Read and for Write, and the bits above, mean nothing.
    *((f"0900020001000000 36*00 {bits} 19*00 16*00", "dataset 0+0 cid=2", "0900020001000000 56*00 16*00") for bits in ("03", "fb")),
    *((f"0900020001000000 36*00 {bits} 19*00 16*00", "dataset 0+0 deallocate cid=2", "0900020001000000 36*00 04 19*00 16*00") for bits in ("04", "ff")),
    # Of another opcode that bit is one of the LBA.
    *((f"{op}00020001000000 36*00 04 19*00", f"{name} 17179869184 1 cid=2", f"{op}00020001000000 36*00 04 19*00") for op, name in (("0a", "op-0a"), ("08", "zeroes"))),
    # The attributes of ranges are dropped, and the next command begins behind the ranges.
    (
        "0900020001000000 32*00 0100000004000000 16*00 aabbccdd020000000700000000000000 00000080010000000900000000000000"
        " 0900030001000000 56*00 00000000020000000700000000000000",
        "dataset 7+2,9+1 deallocate cid=2\ndataset 7+2 cid=3",
        "0900020001000000 32*00 0100000004000000 16*00 00000000020000000700000000000000 00000000010000000900000000000000"
        " 0900030001000000 56*00 00000000020000000700000000000000",
    ),
    # The fields of a range, by struct nvme_dsm_range.
    (
        "0900010001000000 32*00 0100000000000000 16*00 ffffffff040302010807060504030201 00000000010000000900000000000000",
        "dataset 72623859790382856+16909060,9+1",
        "0900010001000000 32*00 0100000000000000 16*00 00000000040302010807060504030201 00000000010000000900000000000000",
    ),
    # The number of ranges has eight bits.
    (
        "0900020001000000 32*00 ff00000004000000 16*00 4096*00",
        f"dataset {','.join(['0+0'] * 256)} deallocate cid=2",
        "0900020001000000 32*00 ff00000004000000 16*00 4096*00",
    ),
]


def entries(run):
    for file, text, written in ENTRIES:
        run.expect(["nvq", "list", "-"], given=spelled(f"{NAME} {file}"), out=f"{text}\n")
        run.expect(["nvq", "assemble", "-", "-"], given=f"{text}\n".encode(), out=spelled(f"{NAME} {written}"))
