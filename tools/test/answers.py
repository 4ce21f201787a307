"""The table of questions in docs/hour.md: what is typed for each, and whether what comes has the answer."""

import re

HEAD = "## Questions of an auditor"
# A cell of commands and one of names: how many there are, the first and the last where they are many.
ROW = re.compile(r"\| (\d+) \| (.+?) \| `(.+)` \| (.+) \|")
MANY = re.compile(r"(\d+): (.+) \.\. (.+)")
NAME = re.compile(r"(?:CN|OU|DC)=((?:[^,\\]|\\.)+)")
LEFT_OUT, FILTERED = "| grep -vwFf admins", ("./adsd who ",)


def parts(text):
    """The part of the page that has the questions: what stands before the table, the table, and what stands after it."""
    own = text.partition(HEAD)[2].partition("\n## ")[0].split("\n")
    places = [at for at, line in enumerate(own) if line.startswith("|")]
    return tuple("\n".join(lines) for lines in (own[: places[0]], own[places[0] : places[-1] + 1], own[places[-1] + 1 :]))


def rows(text):
    """The rows of the table: number, question, command and answer."""
    found = [one.groups() for one in map(ROW.fullmatch, text.split("\n")) if one]
    return [(number, question, command.replace("\\|", "|"), answer) for number, question, command, answer in found]


def typed(command):
    """A command as it is typed: the answers of `who` without those who are meant to have all rights."""
    return f"{command} {LEFT_OUT}" if command.startswith(FILTERED) else command


def told(command, said):
    """Whom an output names, in its order: what stands first in a name, or the account of a table of groups or chains."""
    lines = said.split("\n")
    if " control " in command:
        return [re.split(" {2,}", line)[2] for line in lines if line]
    if " token " in command:
        return [line.split("  ")[-1].strip() for line in lines if line.startswith("group ")]
    if "adsd-whatif" in command:
        lines = [line for line in lines if line[:2] in ("+ ", "- ")]
    return [found[1] for found in map(NAME.search, lines) if found]


def agree(answer, names):
    """Whether an answer is these names: all in order, some of them before `and ..`, or how many from the first to the last."""
    answer = answer.replace("`", "")
    many = MANY.fullmatch(answer)
    if many:
        return [int(many[1]), many[2], many[3]] == [len(names), *(names[:1] + names[-1:])]
    some = answer.split(", ")
    if some[-1] == "and ..":
        places = [names.index(one) if one in names else -1 for one in some[:-1]]
        return places == sorted(places) and -1 not in places and len(some) <= len(names)
    return some == names
