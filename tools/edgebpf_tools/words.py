"""What edgebpf's numbers mean, and what to do about them: docs/BPF.md and docs/SCRIPT.md say it at length."""
import pathlib
import re

from edgebpf_tools.limits import LEAST_RECORD_LENGTH, MOST_RECORD_LENGTH, MOST_TABLE_LENGTH, MOST_UNITS

TOP = pathlib.Path(__file__).resolve().parent.parent.parent
# In a checkout, and in an installation, which has that file alone of the sources.
PLACES = [TOP / "crates" / "explanation" / "src" / "words.rt", TOP / "words.rt"]


def words_of(kind):
    """The words of the rules, or of what helps, by their names: the source of the program that explains has them."""
    source = next(path for path in PLACES if path.exists()).read_text(encoding="utf-8")
    return dict(re.findall(rf'{kind}::(\w+) => (?:{{\s*)?"([^"]*)"', source))


CAUSES = dict(enumerate(words_of("Cause").values(), 1))
# What helps most often. edgebpf-explain looks at the values, and knows better.
HELP = {
    1: "KnownInstructions",
    2: "LandInside",
    3: "Unroll",
    4: "ForwardCalls",
    5: "EndFunctions",
    6: "FewerFrames",
    7: "ShorterRuns",
    8: "SetRegister",
    9: "CopyFrameRegister",
    10: "SwapOperands",
    11: "TestFirst",
    12: "SetBytes",
    13: "HelperArguments",
    14: "KnownHelpers",
    15: "AnswerNumber",
    16: "MoreMemory",
    17: "WriteElsewhere",
    18: "FewerCalls",
}
TEXT_ERRORS = {
    1: "it is no statement and no label, or these are not the arguments of its word",
    2: "no statement has this word",
    3: "an earlier line has this label",
    4: "no line has the label to which it goes",
    5: "a number is outside its range, or a label too far away",
    6: f"with this line the code has more than {MOST_UNITS:,} units",
    7: "there was no memory to assemble it",
}
IMAGE_ERRORS = {
    1: "the bytes do not begin with BPE1 or BPE2, so they are no image",
    2: "the image has more or fewer bytes than its numbers say",
    3: f"the image's record length is not {LEAST_RECORD_LENGTH} to {MOST_RECORD_LENGTH}",
    4: f"the code is not 1 to {MOST_UNITS:,} whole units of 8 bytes",
    6: f"the table is not 1 to {MOST_TABLE_LENGTH:,} bytes",
}


def in_words(reply):
    """What a line that edgebpf wrote means, where that needs saying."""
    words = reply.split()
    if words[0] == "refused":
        cause = int(words[3])
        return f"refused at unit {words[5]}: {CAUSES[cause]}. What often helps: {words_of('Advice')[HELP[cause]]}"
    if words[0] == "assembler":
        return f"line {words[5]} of the program: {TEXT_ERRORS[int(words[3])]}"
    if words[0] == "image":
        return IMAGE_ERRORS[int(words[3])]
    return None
