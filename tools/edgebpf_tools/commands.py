"""The commands of a session: lines that are sent together."""

BLOCKS = ("batch", "program")
# These ask, and change nothing; so does a pull that writes rows.
QUESTIONS = ("run", "list", "home", "values")


def is_question(line):
    words = line.split()
    return words[0] in QUESTIONS or words[0] == "pull" and words[6] == "-"


def commands_of(sent):
    """The commands of lines that were sent, each a list of its lines. Many edits may stand in one item."""
    command = []
    for line in sent:
        command.append(line)
        if command[0].split()[0] not in BLOCKS or line.split() == ["end"]:
            yield command
            command = []


def changes(sent):
    """The commands that change something."""
    return [command for command in commands_of(sent) if not is_question(command[0])]


def whole_length(stream):
    """How many bytes the whole commands of a script have: a last line without its end is none, and neither is a last block."""
    length, kept, is_block = 0, 0, False
    for line in stream:
        if not line.endswith(b"\n"):
            break
        length, words = length + len(line), line.split()
        if is_block:
            is_block = words != [b"end"]
        else:
            is_block = bool(words) and words[0].decode("ascii", "replace") in BLOCKS
        kept = kept if is_block else length
    return kept
