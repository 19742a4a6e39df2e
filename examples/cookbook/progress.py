import sys

PLACES = 40


def text_bar(done, edges):
    filled = PLACES * done // max(edges, 1)
    print(f"\r[{'#' * filled}{'.' * (PLACES - filled)}] {done:,} of {edges:,} edges", end="", file=sys.stderr, flush=True)


def with_bar(version, program, reduction="sum", show=text_bar):
    run, shown = version.begin(program, reduction), -1
    while not run.done:
        run.step()                                          # 10 ms or less; a Ctrl-C ends it between two of them
        percent = 100 * run.edges // max(version.edges, 1)
        if percent > shown:
            shown = percent
            show(run.edges, version.edges)
    return run
