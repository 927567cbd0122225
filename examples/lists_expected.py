"""What lists expect of a run: which expectations are met, what is printed of the others, and which words are none."""

from hints import the_line, told
from lists_run import IDLE, verdict, words

COMMAND = "expected a command before expect"
STATUS = "expected a status after expect, as in 2/85"
END = "expected nothing after the status"
UNCHECKED = "nvq: the lists have no expectation\n"

# Two hosts want one lock. Each list expects what is so where its host comes first, in several spellings.
FIRST = """# host 1
compare 0 1 00 first expect 0/00
write 0 1 01\tsecond\texpect\t00/00\r

read 0 1
  read 40000 1 cid=9 expect 0/80 # past the end
"""
WITHOUT = "compare 0 1 00 first\nwrite 0 1 01 second\nread 0 1\nread 40000 1 cid=9\n"
SECOND = """compare 0 1 00 first expect 0/00#no blank
write 0 1 02 second expect 2/85
op-7f 0 1 expect 0/01
read 0 1 # expect 2/85
read 0 1 expect 2/8A"""
LINES = """1 1 compare 0/00
  compare 0 1 00 first: Successful Completion (0x0)
1 2 write 0/00
  write 0 1 01\tsecond: Successful Completion (0x0)
2 1 compare 2/85
  compare 0 1 00 first: Compare Failure (0x285)
2 2 write 0/09
  write 0 1 02 second: Command Aborted due to Failed Fused Command (0x9)
1 3 read 0/00 512*01
  read 0 1: Successful Completion (0x0)
2 3 op-7f 0/01
  op-7f 0 1: Invalid Command Opcode (0x1)
1 9 read 0/80
  read 40000 1 cid=9: LBA Out of Range (0x80)
2 4 read 0/00 512*01
  read 0 1: Successful Completion (0x0)
2 5 read 0/00 512*01
  read 0 1: Successful Completion (0x0)
"""
UNMET = """unmet 2 1 compare expected 0/00 got 2/85
unmet 2 2 write expected 2/85 got 0/09
unmet 2 5 read expected 2/8a got 0/00
expectations 7 unmet 3
"""

# Lines with wrong expectations, and what is expected there.
WRONG = {
    COMMAND: ["expect 0/00", "\texpect", "expect expect 0/00"],
    STATUS: [
        "read 0 1 expect",
        "read 0 1 expect # 0/00",
        "read 0 1 expect 0",
        "read 0 1 expect 0/0",
        "read 0 1 expect 0/000",
        "read 0 1 expect /00",
        "read 0 1 expect 256/00",
        "read 0 1 expect -1/00",
        "read 0 1 expect 0/0g",
        "read 0 1 expect 0/ 00",
        "read 0 1 expect first 0/00",
        "read 0 1 expect expect 0/00",
    ],
    END: ["read 0 1 expect 0/00 first", "read 0 1 expect 0/00 2/85", "read 0 1 expect 0/00 expect 0/00"],
}
# Words that only begin or end so are no expectations, and no options.
OPTION = "expected first, second, reserved, cid= or nsid="
LIKE = ["expects 0/00", "Expect 0/00", "expect=0/00", "unexpect 0/00"]


def checked(*lists, **options):
    return [*words(*lists, **{"workers": 1, **options}), "--check"]


def lists_expected(run):
    run.keep("first", FIRST)
    run.keep("second", SECOND)
    lines = LINES + "lawful jobs 7 units 4096 changes 1 refused 0\n"
    run.expect(checked("first", "second"), 2, out=lines + UNMET)
    run.expect(words("first", "second", workers=1), out=lines)
    run.expect(checked("first", "second", record="kept"), 2, out=lines + UNMET)
    run.expect(["nvmu", "audit", "kept"], out=lines.splitlines(True)[-1])
    run.expect(checked("-"), out=run.SOME, given=FIRST.encode())
    # Each expectation is of the command of its own line, also where lines before it expect nothing.
    run.keep("last", "write 0 1 41\nread 0 1\n\nread 0 2 expect 0/00\n")
    shown = "1 1 write 0/00\n  write 0 1 41: Successful Completion (0x0)\n"
    shown += "1 2 read 0/00 512*41\n  read 0 1: Successful Completion (0x0)\n"
    shown += "1 3 read 0/00 512*41,512*00\n  read 0 2: Successful Completion (0x0)\n" + "lawful jobs 3 units 4096 changes 1 refused 0\n"
    run.expect(checked("last"), out=shown + "expectations 1 unmet 0\n")
    # The status type is compared too, and not the code alone.
    run.keep("type", "read 40000 1 expect 2/80\n")
    refused = "1 1 read 0/80\n  read 40000 1: LBA Out of Range (0x80)\n" + verdict(1, 0)
    run.expect(checked("type"), 2, out=refused + "unmet 1 1 read expected 2/80 got 0/80\nexpectations 1 unmet 1\n")
    run.keep("plain", "read 40000 1 # expect 2/80\n")
    run.expect(checked("plain"), out=refused + "expectations 0 unmet 0\n", err=UNCHECKED)
    run.keep("none", "# expect 0/00\n")
    run.expect(checked("none"), out=verdict(0, 0) + "expectations 0 unmet 0\n", err=IDLE)
    # A host file has none of them.
    run.keep("without", WITHOUT)
    run.expect(["nvq", "assemble", "without", "without.nvq"])
    run.expect(["nvq", "assemble", "first", "first.nvq"], files={"first.nvq": run.kept("without.nvq")})
    wrong_expectations(run)


def wrong_expectations(run):
    """The first wrong expectation of a list is told before its first line that is no command, and nothing is printed."""
    for expected, listed in WRONG.items():
        for line in listed:
            run.keep("wrong", f"walk 0 1\nread 0 1 expect 0/00\n{line}\nexpect\n")
            err = told(f"nvq: wrong: line 3: {expected}", the_line(line.strip()))
            run.expect(checked("first", "wrong"), 1, err=err)
            run.expect(words("wrong"), 1, err=err)
            run.expect(["nvq", "assemble", "wrong", "out.nvq"], 1, err=err)
    for line in LIKE:
        run.keep("like", f"\nread 0 1 {line}\n")
        run.expect(checked("like"), 1, err=told(f"nvq: like: line 2: {OPTION}", the_line(f"read 0 1 {line}")))
    run.keep("wrong", "read 0 1 expect 0/00\nread 0 x expect 0/00 # so\n")
    blocks = "expected a number of blocks from 1 to 65536"
    run.expect(checked("wrong"), 1, err=told(f"nvq: wrong: line 2: {blocks}", the_line("read 0 x")))
    run.expect(["nvq", "assemble", "wrong", "out.nvq"], 1, err=told(f"nvq: line 2: {blocks}", the_line("read 0 x expect 0/00 # so")))
    run.refuse(["nvq", "run", "--check=1", "first"])
