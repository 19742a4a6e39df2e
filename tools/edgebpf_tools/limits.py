"""The limits of the crates, by their names there. tools/dev/write_limits.py writes this file; docs/LIMITS.md has them with what a user meets."""
# How many vertices a graph may have.
MOST_VERTICES = 268_435_456
# How many vertices a graph may have in a store with feeds and readers, in a session and in a script.
SERVED_VERTICES = 1_048_576
# How many edits a batch may have.
MOST_EDITS = 65_536
# How many batches a log may have.
MOST_BATCHES = 4_096
# How many epochs may end in a store with feeds and readers, in a session and in a script.
SERVED_EPOCHS = 1_024
# How many epochs may end before a version, each by a rebase: as many as 64 bits count.
MOST_EPOCHS = 18_446_744_073_709_551_615
# How many feeds hand in batches: A is 0, and D is 3.
FEEDS = 4
# How many units of code a program may have.
MOST_UNITS = 4_096
# The least length of a program's record, in bytes: an edge's own bytes, which come first.
LEAST_RECORD_LENGTH = 16
# The greatest length of a program's record, in bytes.
MOST_RECORD_LENGTH = 256
# How many bytes an argument has at most: those of the longest record that are not the edge's.
MOST_ARGUMENT = 240
# The greatest length of a program's table, in bytes.
MOST_TABLE_LENGTH = 4_096
# The most columns that a record has numbers of.
MOST_COLUMNS = 8
# How many instructions a run may count.
MOST_COUNTED = 1_000_000
# How many instructions the abstract pass may go through, if all code is reached: it goes through a function once for each call of it.
MOST_PAIRS = 1_000_000
# How many frames may be live at once: those of a function and of all its callers.
MOST_FRAMES = 8
# How many bytes the stack frame of a function has.
FRAME_BYTES = 512
# How many bytes the helper gather may be lent at most.
MOST_GATHER_BYTES = 256
# The greatest number of programs that are kept, and of pins.
MOST_KEPT = 256
# The greatest number of columns that are kept.
MOST_KEPT_COLUMNS = 64
# The greatest length of a line in bytes, its end left out.
MOST_LINE_BYTES = 80_000
# The greatest number of lines of a program in assembler text.
MOST_PROGRAM_LINES = 65_536
# The most bytes of a name.
MOST_NAME_BYTES = 32
# The most workers that there may be.
MOST_WORKERS = 16
# How many bytes of its record are the edge's own.
EDGE_BYTES = 16
# How many bytes of its record an edge has of each column: the number of its source, and that of its target.
COLUMN_BYTES = 16
# How many vertices a range has: those from 256 times its number on.
RANGE_VERTICES = 256
# How many bytes of code a program may have: those of its units.
MOST_CODE_BYTES = 32_768
