"""Pages whose commands are typed: the lines behind `$`, and what has to come of each; and the examples of a help."""

import re

# A word in capitals stands for one of the reader's, and brackets for what may be left out.
FORM = re.compile(r"(^|[\s<>])(STORE|FILE|NAME|SDDL|LDIF|SID|DN|NEW|ENTRY|COMPANION)\b|\[|\.\.($|\s)")
# Behind three blanks stands what an example is for.
REMARK = re.compile(r"\s{2,}(\(.*)?$|\s{3,}\S.*$")


def commands(text):
    """Pairs of a command and the lines that must come, None where none stand below it."""
    found, lines = [], [line[4:] if line.startswith("    ") else "" if not line else None for line in text.split("\n")]
    at = 0
    while at < len(lines):
        if lines[at] is None or not lines[at].startswith("$ "):
            at += 1
            continue
        command = lines[at][2:]
        while command.endswith("\\"):
            at += 1
            command = f"{command[:-1]}{lines[at].strip()}"
        begun = at = at + 1
        while at < len(lines) and lines[at] is not None and not lines[at].startswith("$ "):
            at += 1
        wanted = "\n".join(lines[begun:at]).rstrip("\n")
        found.append((command, wanted.split("\n") if wanted else None))
    return found


def agrees(wanted, said):
    """Whether what was said is as the page has it."""
    pattern = ""
    for line in wanted:
        if line == "...":
            pattern += r"(?:.*\n)*?"
        elif line.endswith("..."):
            pattern += re.escape(line[:-3]) + r".*\n"
        else:
            pattern += re.escape(line) + r"\n"
    return re.fullmatch(pattern, said.rstrip("\n") + "\n") is not None


def examples(text, indent):
    """The lines of a help that can be typed."""
    for line in text.splitlines():
        begins = re.match(indent + r"(?=(\./adsd|tools/adsd-|adsd-|adsd |echo |\())", line)
        if begins and not FORM.search(line):
            yield REMARK.sub("", line[begins.end() :])


def overview(text):
    """The examples in the last column of the help on all commands."""
    for line in text.splitlines():
        found = re.match(r"  [a-z]+.{38,46}?((\./adsd|tools/adsd-|adsd-|adsd ).*)$", line)
        if found:
            yield found.group(1)
