"""What is printed of a run beside its command lists."""

NAMES = {
    "0/00": "Successful Completion (0x0)",
    "0/01": "Invalid Command Opcode (0x1)",
    "0/02": "Invalid Field in Command (0x2)",
    "0/06": "Internal Error (0x6)",
    "0/09": "Command Aborted due to Failed Fused Command (0x9)",
    "0/0a": "Command Aborted due to Missing Fused Command (0xa)",
    "0/0b": "Invalid Namespace or Format (0xb)",
    "0/14": "Atomic Write Unit Exceeded (0x14)",
    "0/80": "LBA Out of Range (0x80)",
    "2/81": "Unrecovered Read Error (0x281)",
    "2/85": "Compare Failure (0x285)",
}


def said(listed):
    """What the lines of a list say that have words, one after the other."""
    lines = (line.partition("#")[0].strip(" \t\r") for line in listed.split("\n"))
    return iter([line for line in lines if line])


def beside(shown, lists):
    """The lines that are shown of a run, with what its lists say under each."""
    sayings = [said(listed) for listed in lists]
    *lines, verdict = shown.splitlines()
    told = [f"{line}\n  {next(sayings[int(line.split()[0]) - 1])}: {NAMES[line.split()[3]]}\n" for line in lines]
    return "".join(told) + f"{verdict}\n"
