#!/usr/bin/python3
"""Writes the options of edgebpf-serve into docs/SERVICE.md and dist/edgebpf-serve.1, of tools/edgebpf_serve/limits.py."""
import dataclasses
import importlib.util
import pathlib
import re

TOP = pathlib.Path(__file__).resolve().parent.parent.parent


def limits():
    """The module of limits, which needs nothing of the service."""
    found = importlib.util.spec_from_file_location("serve_limits", TOP / "tools/edgebpf_serve/limits.py")
    module = importlib.util.module_from_spec(found)
    found.loader.exec_module(module)
    return module


def options():
    """(name, default, words) of each option."""
    module = limits()
    for field in dataclasses.fields(module.Options):
        default = "" if field.default in (None, "", False) else f"{field.default:,}" if isinstance(field.default, int) else f"{field.default}"
        yield "--" + field.name.replace("_", "-"), default, module.HELP[field.name][2]


def table():
    rows = [f"| `{name}` | {default} | {words} |" for name, default, words in options()]
    return "\n".join(["| Option | If it is not said | What it is |", "|---|---|---|", *rows])


def manual():
    def line(name, default, words):
        bold = name.replace("-", "\\-")
        return f".TP\n.B {bold}\n{words[0].upper()}{words[1:]}" + (f" ({default})." if default else ".")

    return "\n".join(line(*option) for option in options())


def written(text, begin, end, inside):
    return re.sub(f"({re.escape(begin)}\n).*?({re.escape(end)})", lambda found: f"{found[1]}{inside}\n{found[2]}", text, flags=re.S)


def main():
    page, man = TOP / "docs/SERVICE.md", TOP / "dist/edgebpf-serve.1"
    page.write_text(written(page.read_text(), "<!-- options -->", "<!-- end of options -->", table()))
    man.write_text(written(man.read_text(), '.\\" OPTIONS', ".SH ENVIRONMENT", manual()))


if __name__ == "__main__":
    main()
