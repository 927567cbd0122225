"""Lists with several lines that are no commands: what `nvq assemble` and `nvq run` must say of them."""

from hints import no_list, the_line, told
from host_files import file_of

NAME = "expected write, read, compare, zeroes, uncorrectable, dataset, or op- and another opcode in two hexadecimal digits"
BLOCKS = "expected a number of blocks from 1 to 65536"
LBA = "expected an LBA from 0 to 18446744073709551615"
# So many are told behind the first.
MOST = 20

# A list, the number of its first wrong line, what was expected there, the line, and the others as they are told.
LISTS = [
    ("read 7 0x2\n", 1, BLOCKS, "read 7 0x2", []),
    ("read 7 0x2\nread 0 1\nwalk\n", 1, BLOCKS, "read 7 0x2", [f"line 3: {NAME}"]),
    # Comments and lines without words are counted, and aren't wrong.
    ("# walk\n\nread x 1\n  \t\nread 0 1 # walk\nread 0 0\r\nwalk", 3, LBA, "read x 1", [f"line 6: {BLOCKS}", f"line 7: {NAME}"]),
    # A wrong line is no command, so a command behind it has the place that it would have without it.
    ("walk\nread 0 1\nread 0 1 2\n", 1, NAME, "walk", ["line 3: expected first, second, reserved, cid= or nsid="]),
    # What a command is expected to end with isn't a part of it.
    ("walk expect 0/00\nread 0 1 expect 2/85\nread 1 x expect 0/00\n", 1, NAME, "walk", [f"line 3: {BLOCKS}"]),
]


def wrong_lists(run):
    for text, line, expected, shown, others in LISTS:
        run.keep("wrong", text)
        found = f"line {line}: {expected}"
        run.expect(["nvq", "run", "wrong"], 1, err=told(f"nvq: wrong: {found}", the_line(shown, *others)))
        # Of a list that is assembled the line is shown as it stands there.
        shown = text.splitlines()[line - 1].strip()
        run.expect(["nvq", "assemble", "wrong", "out"], 1, err=told(f"nvq: {found}", the_line(shown, *others)))
    # The first list that has wrong lines is told, and no other.
    run.keep("right", "read 0 1\n")
    run.keep("wrong", "walk\nwalk\n")
    run.keep("other", "read 0 0\n")
    run.expect(["nvq", "run", "right", "wrong", "other"], 1, err=told(f"nvq: wrong: line 1: {NAME}", the_line("walk", f"line 2: {NAME}")))
    for more in (0, 1, 2, 100_000):
        others = [f"line {line}: {NAME}" for line in range(2, MOST + 2)] + ([f"and {more} line{'s' * (more > 1)} more"] if more else [])
        run.keep("wrong", "walk\n" * (1 + MOST + more))
        run.expect(["nvq", "assemble", "wrong", "out"], 1, err=told(f"nvq: line 1: {NAME}", the_line("walk", *others)))
    # No more than 65,536 commands are taken, whatever stands between them.
    full = "expected no more than 65536 commands"
    run.keep("wrong", "read 0 1\n" * 65_536 + "read 0 1\nwalk\n")
    run.expect(["nvq", "assemble", "wrong", "out"], 1, err=told(f"nvq: line 65537: {full}", the_line("read 0 1", f"line 65538: {full}")))
    run.keep("wrong", "walk\n" + "read 0 1\n" * 65_537)
    run.expect(["nvq", "assemble", "wrong", "out"], 1, err=told(f"nvq: line 1: {NAME}", the_line("walk", f"line 65538: {full}")))
    # A line that isn't plain text isn't shown, and the others are told.
    run.keep("wrong", b"walk \xff\nwalk\n")
    run.expect(["nvq", "assemble", "wrong", "out"], 1, err=told(f"nvq: line 1: {NAME}", f"line 2: {NAME}"))
    # Of a file of another kind it is said what it is.
    run.keep("wrong", file_of([]) + b"\nwalk\nwalk\n")
    run.expect(["nvq", "assemble", "wrong", "out"], 1, err=told(f"nvq: line 1: {NAME}", no_list("wrong", b"NVQ1\nwalk\nwalk\n")))
