"""The public calls of crates that can be made to refuse, for want of memory, as sweep/refusals does it."""

import os
import re
from dataclasses import dataclass

TOP = os.path.dirname(os.path.dirname(os.path.realpath(__file__)))
# Errors that are nothing but want of memory, and that of a writer.
WANT = {
    "NoMemory": "std::alloc::AllocError",
    "AllocError": "std::alloc::AllocError",
    "io::Result": "std::io::Error::from(std::io::ErrorKind::OutOfMemory)",
}

# What a space reports of a job for want of memory, where no check refuses the job.
NO_PART = "crate::job_done::JobDone::of_no_part(alloc, job)"
IS_READY = "nvm_plan::refusal(&self.geometry, job).is_none()"
# What these answer for want of memory, which is no error of a Result that could be made of its name alone, and where they may.
ANSWERS = {
    ("nvm_unit", "Unit::change"): ("Changed::NoMemory { point: 0 }", ""),
    ("nvm_unit", "Unit::try_change"): ("Ok(Changed::NoMemory { point: 0 })", ""),
    ("nvm_unit", "Unit::poll_change"): ("Some(Changed::NoMemory { point: 0 })", ""),
    ("nvm_space", "Space::run_job"): (NO_PART, IS_READY),
    ("nvm_space", "Space::begin_job"): (f"Progress::Done({NO_PART})", IS_READY),
    ("nvm_space", "Space::poll_job"): (f"Progress::Done({NO_PART})", ""),
    ("nvm_text", "hand_noting"): ("Err(note(noted, Error::from(ErrorKind::OutOfMemory)))", ""),
    ("nvm_trace", "Trace::push"): ("Err(std::alloc::AllocFailed { value: job })", ""),
    ("nvm_engine", "run"): ("Err(crate::run_fault::RunFailed { fault: crate::run_fault::RunFault::NoMemory, jobs })", ""),
}
# Calls that no program makes, and who does.
LEFT_OUT = {
    ("nvm_record", "Payload::copy_of"): "nvm_c",
    ("nvm_space", "Space::history"): "tests of nvm_thread_tests",
    ("nvm_engine", "execute"): "tests of nvm_thread_tests",
    ("nvm_engine", "audit_bytes"): "tests of nvm_thread_tests",
    ("nvm_engine", "judge_alone"): "nvm_c",
    ("nvm_engine", "witness_record_alone"): "nvm_c",
}
# An end whose refusal the programs can't tell by what they say: a hint that isn't there, or for which there was no memory.
UNTOLD = ("nvm_commands", "other_block", "Ok(None)")


@dataclass
class Refusal:
    """A call, or one of its ends, that is to refuse."""

    crate: str
    path: str  # of the file, from the top
    name: str
    begin: int  # where its body begins, or the `Ok` of that end
    end: int  # where that `Ok` ends, or the same
    answer: str
    where: str = ""  # what must hold besides, or nothing
    is_end: bool = False


def text_of(path):
    with open(path, encoding="utf-8") as it:
        return it.read()


def sources_of(crate):
    """The paths of the crate's sources, but for those of its tests."""
    for at, folders, names in os.walk(f"{TOP}/crates/{crate}/src"):
        folders[:] = sorted(it for it in folders if it != "tests")
        yield from (f"{at}/{name}" for name in sorted(names) if name.endswith(".rt") and name != "tests.rt")


def made_public(crate, path):
    """The names that the crate's page makes public, or the page of a folder of its modules in which the file at the path is."""
    top, folder, names = f"{TOP}/crates/{crate}/src", os.path.dirname(path), set()
    pages = [f"{top}/lib.rt"]
    while folder != top:
        pages.append(f"{folder}.rt")
        folder = os.path.dirname(folder)
    for page in pages:
        for uses in re.findall(r"^pub use [\w:]+::(\{[^}]*\}|\w+);", text_of(page), re.M):
            names.update(re.findall(r"\w+", uses))
    return names


def error_value(error):
    """A value of this type of errors that says want of memory, or None."""
    if error in WANT:
        return WANT[error]
    for crate in sorted(os.listdir(f"{TOP}/crates")):
        for path in sources_of(crate):
            found = re.search(rf"^pub enum {error} \{{$(.*?)^\}}$", text_of(path), re.M | re.S)
            kind = found and re.search(r"^    NoMemory( \{ (.*) \})?,$", found[1], re.M)
            if kind:
                fields = ", ".join(f"{it}: 0" for it in re.findall(r"(\w+):", kind[2] or ""))
                return f"{error}::NoMemory" + (f" {{ {fields} }}" if fields else "")
    return None


def closing(text, at):
    """The place of the bracket that closes the one at this place."""
    depth, pairs = 0, {"(": ")", "{": "}", "[": "]"}
    for place in range(at, len(text)):
        if text[place] in pairs:
            depth += 1
        elif text[place] in pairs.values():
            depth -= 1
            if not depth:
                return place
    raise ValueError("a bracket isn't closed")


def error_of(signature):
    """The type of the error, where what is answered is a Result."""
    if re.search(r"-> io::Result<", signature):
        return "io::Result"
    answered = re.search(r"-> (?:Option<)?Result<(.*?)>{1,2}\s*$", signature, re.S)
    named = answered and re.search(r"(\w+)$", answered[1].rstrip(" ,\n"))
    return named and named[1]


def calls_in(text):
    """Yields of each function of a file its owner, or '', whether it is public, its name, its signature, and from where to where its
    body goes."""
    owner, of_trait = "", False
    for head in re.finditer(r"^impl\b.*$|^}$|^( {4})?(pub )?fn (\w+)", text, re.M):
        if head[0].startswith("impl"):
            named = re.match(r"impl(?:<.*?>)? (?:([\w:]+)(?:<.*>)? for )?(\w+)", head[0])
            owner, of_trait = named[2], bool(named[1])
        elif head[0] == "}":
            owner, of_trait = "", False
        else:
            indent = head[1] or ""
            # Behind the words of its contract a body has its brace on a line of its own.
            begin = re.compile(rf"^{indent}{{$|^{indent}\S.* {{$", re.M).search(text, head.start())
            if not begin:
                continue
            end = text.index(f"\n{indent}}}\n", begin.end() - 1)
            signature = re.split(rf"^{indent}    (?:requires |ensures |//)", text[head.start() : begin.end() - 1], flags=re.M)[0]
            yield owner, bool(head[2]) or of_trait, head[3], signature.rstrip(" \n"), begin.end(), end


def ends_of(text, begin, end):
    """From where to where each Ok goes that a body answers, and not one that it matches, or that stands in another."""
    reached = begin
    for found in re.finditer(r"(?<![\w:])Ok\(", text[begin:end]):
        at = begin + found.start()
        last = closing(text, begin + found.end() - 1) + 1
        if at >= reached and not re.match(r"\s*(=>|=[^=]|if )", text[last:]):
            reached = last
            yield at, last


def refusals_of(crate, word=""):
    """The refusals of the crate's calls whose names have the word, and the calls whose error isn't want of memory."""
    refusals, left = [], []
    for path in sources_of(crate):
        text, place, public = text_of(path), os.path.relpath(path, TOP), made_public(crate, path)
        for owner, is_public, name, signature, begin, end in calls_in(text):
            called = f"{owner}::{name}" if owner else name
            if not is_public or (owner or name) not in public or word not in called:
                continue
            if (crate, called) in LEFT_OUT:
                left.append(f"{crate}: {called}: it is called by {LEFT_OUT[crate, called]}")
                continue
            if (crate, called) in ANSWERS:
                refusals.append(Refusal(crate, place, called, begin, begin, *ANSWERS[crate, called]))
                continue
            error = error_of(signature)
            if not error:
                continue
            value = error_value(error)
            if not value:
                left.append(f"{crate}: {called}: {error} isn't want of memory")
                continue
            is_option = bool(re.search(r"-> Option<", signature))
            answer = f"Some(Err({value}))" if is_option else f"Err({value})"
            refusals.append(Refusal(crate, place, called, begin, begin, answer))
            ends = [] if is_option else list(ends_of(text, begin, end))
            if len(ends) < 2:
                continue
            for number, (at, last) in enumerate(ends, 1):
                if (crate, called, text[at:last]) == UNTOLD:
                    continue
                line = text.count("\n", 0, at) + 1
                told = f"{called}, end {number} of {len(ends)}, line {line}: {' '.join(text[at:last].split())[:60]}"
                refusals.append(Refusal(crate, place, told, at, last, answer, is_end=True))
    return refusals, left
