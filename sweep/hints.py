"""What nvq says below the line of a fault, behind two spaces, so that whoever reads it knows what to do."""

MISSING = "there is no such file or folder"
FORBIDDEN = "its permissions forbid that"
FOLDER = "it is a folder"
NO_FOLDER = "a part of its path is no folder"
NO_SPACE = "no space is left"
TOO_LARGE = "it would be larger than a file may be"
LOOP = "its links lead to themselves"
NO_READER = "its reader has ended"
VERSIONS = "the fourth byte of a record is 1 or 2"
IS_LIST = "it is the list"
IS_OTHER_LIST = "the list of another host goes there"
IS_OUTPUT = "standard output goes there, with the lines"
GEOMETRY = {
    "Size": "--nsze is 1 to 65536",
    "BlockSize": "--block is 512 or 4096",
    "OffsetWithoutBoundary": "--nabo is 0 where --nabsn is 0",
    "OffsetAboveBoundary": "--nabo is at most --nabsn",
    "WriteUnitAboveBoundary": "--nawun is at most --nabsn where that isn't 0",
    "PairUnitAboveBoundary": "--nacwu is at most --nabsn where that isn't 0",
    "TooManyUnits": "--nabsn cuts --nsze blocks into more than 4096 units: a larger --nabsn makes fewer",
}


KIND = "not the kind of file that is expected"


def told(line, hint=""):
    """A fault's line, and what stands below it. For nvq a bad name is another kind of file, since the name that whoever calls it knows is that of the path."""
    if line.startswith("nvq: ") and line.endswith(": bad name"):
        line = line.removesuffix("bad name") + KIND
    return f"{line}\n  {hint}\n" if hint else f"{line}\n"


def the_line(text, *others, of=""):
    """What is said of a wrong line, and of other wrong ones of a list or a trace's text; of a trace's text that has a path with that."""
    return "\n  ".join([f"the line{of and f' of {of}'} is: {text[:100]}", *others])


def other_block(size):
    return f"it is a host file of blocks of {size} bytes: --block {size}"


def is_text(content):
    front = content[:4096]
    return len(front) >= 4 and all(byte in b"\t\n\r" or 32 <= byte != 127 for byte in front)


def no_host_file(path, content):
    name = "standard input" if path == "-" else path
    if not content:
        return f"{name} is empty, and a host file begins with NVQ1"
    if content[:3] == b"NVR":
        return f"{name} is a record: nvmu audit {path} judges it, nvq list {path} shows it"
    if is_text(content):
        return (
            f"{name} is text: nvq run {path} does the commands of a list, "
            f"nvq assemble {path} HOSTFILE makes a host file of it"
        )
    return f"{name} is no host file, which begins with NVQ1"


def no_record(path, content):
    name = "standard input" if path == "-" else path
    if not content:
        return f"{name} is empty, and a record begins with NVR1 or NVR2"
    if content[:4] == b"NVQ1":
        return f"{name} is a host file: nvmu run does its commands and writes a record"
    if content[:3] == b"NVT":
        return f"{name} is a trace: nvmu witness {path} REC judges it by a record, nvq certify {path} without one"
    if is_text(content):
        return f"{name} is text, which no record is: nvmu run and nvq run write records"
    return f"{name} is no record, which begins with NVR1 or NVR2"


def no_list(path, content):
    name = "standard input" if path == "-" else path
    if content[:4] == b"NVQ1":
        return f"{name} is a host file: nvq list {path} makes a list of it"
    if content[:3] == b"NVR":
        return f"{name} is a record: nvq list {path} shows it"
    return ""


def of_record(line, path, content):
    """What stands below the line of a file that is no record."""
    if line.endswith("bad name"):
        return no_record(path, content)
    return VERSIONS if line.endswith("unknown version") else ""
