#!/usr/bin/env python3
"""Makes docs/playground.html: the library for C as a WebAssembly module, and a page around it, in one file. Of the same parts it makes the page of
edgebpf-serve, which has no module, and asks the service.

    tools/dev/make_playground.py             makes the module and both pages, over the libraries that `rt ci` or tools/prove built
    tools/dev/make_playground.py --page      makes both pages again, around the module that there is
    tools/dev/make_playground.py --compare   makes the pages elsewhere, and the module where those libraries are, and compares

The kit does not compile the library for WebAssembly. So its clang is given the module of LLVM that it compiles for x86-64, with another
layout of data, another target and other attributes of functions, and wasm-opt makes the module's 64-bit memory one of 32 bits.
"""
import base64
import gzip
import hashlib
import importlib.machinery
import importlib.util
import json
import pathlib
import re
import shutil
import subprocess
import sys
import tempfile
import typing

TOP = pathlib.Path(__file__).resolve().parent.parent.parent
PARTS, HEADER = TOP / "tools/playground", TOP / "bindings/c/edgebpf.h"
CRATE = "edgebpf_c"
# What stands before an object's text in dist/.
HEAD_LINES = 3
SHARED = [PARTS / "reading.js", PARTS / "drawing.js", PARTS / "page.js"]
MODULE = re.compile(r'(<script type="text/plain" id="module">\n)(.*?)(</script>)', re.S)
LINE = 160
MADE = "<!-- Made by tools/dev/make_playground.py, of tools/playground/ and bindings/js/: change those, and make it again. -->\n"


class Page(typing.NamedTuple):
    """A page: the parts of page.html that it has besides those of both, its scripts in their order, and what its policy allows."""

    path: pathlib.Path
    name: str
    scripts: list
    allows: str


PLAYGROUND = Page(
    TOP / "docs/playground.html", "module", [TOP / "bindings/js/heap.js", TOP / "bindings/js/host.js", *SHARED, PARTS / "module.js"], "script-src {script} 'wasm-unsafe-eval'")
SERVED = Page(TOP / "tools/edgebpf_serve/page.html", "service", [*SHARED, PARTS / "service.js"], "connect-src 'self'; script-src {script}")
PAGES = PLAYGROUND, SERVED

# Pointers and numbers of 64 bits have the same sizes and alignments in both.
LAYOUTS = (
    'target datalayout = "e-m:e-p270:32:32-p271:32:32-p272:64:64-i64:64-i128:128-f80:128-n8:16:32:64-S128"',
    'target datalayout = "e-m:e-p:64:64-p10:8:8-p20:8:8-i64:64-i128:128-n32:64-S128-ni:1:10:20"',
)
TARGETS = 'target triple = "x86_64-unknown-linux-gnu"', 'target triple = "wasm64-unknown-unknown"'
# The stack is not probed on WebAssembly. What the kit gives the functions of a module for wasm64 is the rest.
ATTRIBUTES = (
    '"probe-stack"="inline-asm" "stack-probe-size"="3072" "target-cpu"="x86-64-v2"',
    '"no-builtin-bcmp" "no-builtin-memcmp" "no-builtin-strlen" "target-cpu"="lime1"',
)
# This tells the compiler that memory may have changed, and is no instruction.
BARRIER = 'asm sideeffect "", "~{memory}"()'
# The words that the kit gives its clang and its linker for wasm64.
COMPILES = (
    "--target=wasm64-unknown-unknown -mcpu=lime1 -mllvm -expand-div-rem-bits=64 -mllvm -expand-fp-convert-bits=64 -ffunction-sections "
    "-fdata-sections -mllvm -trap-unreachable -mllvm -disable-machine-licm -mllvm -disable-postra-machine-licm -mllvm "
    "-sink-common-insts=false --no-default-config -no-canonical-prefixes -fno-crash-diagnostics -Werror -c -x ir -O3"
).split()
LINKS = (
    "-flavor wasm -mwasm64 --no-entry --stack-first -z stack-size=1048576 --export=__heap_base --gc-sections --fatal-warnings --threads=1 --strip-all"
).split()
# What the module asks of its host: its memory, and products of 128 bits.
ASKED = "rattle_alloc", "rattle_realloc", "rattle_dealloc", "__multi3"
LOWERS = [f"--enable-{name}" for name in ("memory64", "bulk-memory", "sign-ext", "mutable-globals", "nontrapping-float-to-int", "multivalue")] + ["--memory64-lowering"]


# A second module would be one that this does not know of.
KEEPS = """\
#!/bin/sh
for word in "$@"; do
    case "$word" in *.bc) [ ! -e "{kept}" ] && cp "$word" "{kept}" || exit 1 ;; esac
done
exec "{clang}" "$@"
"""


class Stop(Exception):
    """Nothing is made, and why."""


def compile_tool():
    loader = importlib.machinery.SourceFileLoader("compile_tool", str(TOP / "tools" / "compile"))
    module = importlib.util.module_from_spec(importlib.util.spec_from_loader("compile_tool", loader))
    loader.exec_module(module)
    return module


def run(*command):
    ran = subprocess.run(command, stdin=subprocess.DEVNULL, stdout=subprocess.PIPE, stderr=subprocess.STDOUT, text=True, errors="replace")
    if ran.returncode:
        raise Stop(f"{pathlib.Path(command[0]).name} failed:\n{ran.stdout[-2000:]}")


def keeping_toolchain(folder, kit, kept):
    """The kit's tools in a folder, where clang keeps the module that it is given."""
    (folder / "bin").mkdir(parents=True)
    (folder / "lib").symlink_to(kit / "toolchain/lib")
    for tool in (kit / "toolchain/bin").iterdir():
        if tool.name != "clang":
            (folder / "bin" / tool.name).symlink_to(tool)
    clang = folder / "bin/clang"
    clang.write_text(KEEPS.format(kept=kept, clang=kit / "toolchain/bin/clang"))
    clang.chmod(0o755)
    return folder


def test_object(object_file):
    """Whether what the same call compiled is what dist/ has, so that the module that was kept is that library's."""
    sys.path.insert(0, str(TOP / "tools"))
    try:
        from object_text import object_text
    except ImportError:
        return print("make_playground: skipped: the object is not compared with dist/libedgebpf.s, since python3-pyelftools is missing")
    text = (TOP / "dist/libedgebpf.s").read_text().split("\n", HEAD_LINES)[HEAD_LINES]
    if object_text(object_file) != text:
        raise Stop("the module that was kept is not the one of dist/libedgebpf.s: make dist/ first, by tools/make_dist")


def retargeted(text):
    """A module of LLVM for x86-64 as one for WebAssembly."""
    for old, new in (LAYOUTS, TARGETS):
        if text.count(old) != 1:
            raise Stop(f"the module has not once: {old}")
        text = text.replace(old, new)
    text = text.replace(*ATTRIBUTES)
    without = text.replace(BARRIER, "")
    for word in ("x86", "asm ", "probe-stack"):
        if word in without:
            raise Stop(f"the module has something of x86-64 that this does not know: {word}")
    return text


def exported():
    """The functions that the header declares."""
    return sorted(set(re.findall(r"^(?:uint32_t|void) (edgebpf_\w+)\(", HEADER.read_text(), re.M)))


def make_module(folder):
    """The bytes of the module."""
    tool = compile_tool()
    kit, kept, text = tool.kit_folder(), folder / "kept.bc", folder / "module.ll"
    clang = kit / "toolchain/bin/clang"
    tool.compile_crate(TOP, CRATE, folder / "object", [], keeping_toolchain(folder / "tools", kit, kept))
    test_object(folder / "object")
    run(clang, "-S", "-emit-llvm", "-x", "ir", kept, "-o", text)
    text.write_text(retargeted(text.read_text()))
    return link_module(folder, clang, text)


def link_module(folder, clang, text):
    asked = folder / "asked"
    run(clang, *COMPILES, text, "-o", folder / "module.o")
    asked.write_text("".join(f"{name}\n" for name in ASKED))
    exports = [f"--export={name}" for name in exported()]
    run(clang.parent / "ld.lld", *LINKS, f"--allow-undefined-file={asked}", *exports, "-o", folder / "wide.wasm", folder / "module.o")
    run(shutil.which("wasm-opt"), *LOWERS, folder / "wide.wasm", "-o", folder / "module.wasm")
    return (folder / "module.wasm").read_bytes()


def script(paths):
    """Scripts as one. Each is a function of its own, that returns what it exports."""
    parts = []
    for path in paths:
        text = path.read_text()
        names = re.findall(r"^export (?:async )?(?:const|class|function) (\w+)", text, re.M)
        text = re.sub(r'^import (\{[^}]*\}) from ".*/(\w+)\.js";$', r"const \1 = \2;", text, flags=re.M)
        text = re.sub(r"^export ", "", text, flags=re.M)
        parts.append(f"const {path.stem} = (() => {{\n{text}return {{ {', '.join(names)} }};\n}})();\n")
    return "".join(parts)


def packed_module(module):
    text = base64.b64encode(gzip.compress(module, 9, mtime=0)).decode()
    return "\n".join(text[at:at + LINE] for at in range(0, len(text), LINE)) + "\n"


def module_of(page):
    """The bytes of the module that a page has."""
    return gzip.decompress(base64.b64decode(MODULE.search(page)[2]))


def examples_of(page):
    """The examples of a page: a service has the edges, and columns of its own."""
    text = (PARTS / "examples.json").read_text()
    if page is SERVED:
        kept = [{name: value for name, value in example.items() if name != "edges"} for example in json.loads(text) if "columns" not in example]
        text = f"{json.dumps(kept, indent=2)}\n"
    return text.replace("</", "<\\/")


def parts_of(page):
    """page.html with the parts of one page alone."""
    text = (PARTS / "page.html").read_text().replace("<!doctype html>\n", f"<!doctype html>\n{MADE}")
    for name in (one.name for one in PAGES):
        kept = r"\1" if name == page.name else ""
        text = re.sub(rf"<!-- {name}: -->\n(.*?)<!-- :{name} -->\n", kept, text, flags=re.S)
    return text


def make_page(page, packed):
    """A page, around a module as it is packed if it has one."""
    code, style = script(page.scripts), (PARTS / "page.css").read_text()
    if "</script" in code or "</style" in style:
        raise Stop("a script or the style has the end of its element within")
    # Nothing is fetched from elsewhere or sent there, and no other script or style counts.
    sums = ["'sha256-%s'" % base64.b64encode(hashlib.sha256(f"\n{text}".encode()).digest()).decode() for text in (code, style)]
    policy = f"default-src 'none'; {page.allows.format(script=sums[0])}; style-src {sums[1]}; base-uri 'none'; form-action 'none'"
    filled = {
        "policy": f'<meta http-equiv="Content-Security-Policy" content="{policy}">\n',
        "style": f"<style>\n{style}</style>\n",
        "examples": f'<script type="application/json" id="examples">\n{examples_of(page)}</script>\n',
        "module": f'<script type="text/plain" id="module">\n{packed}</script>\n' if page is PLAYGROUND else "",
        "script": f'<script type="module">\n{code}</script>\n',
    }
    text = parts_of(page)
    for name, part in filled.items():
        text = text.replace(f"<!-- {name} -->\n", part)
    return text


def name_of(page):
    return page.path.relative_to(TOP)


def kept_module():
    """The module that the playground has, as it is packed."""
    return MODULE.search(PLAYGROUND.path.read_text())[2]


def lacking():
    """Why the module cannot be made here, in words, or None."""
    if shutil.which("rt") is None:
        return "the prover's kit is not there"
    if shutil.which("wasm-opt") is None:
        return "there is no wasm-opt: apt-get install binaryen"
    tool = compile_tool()
    try:
        tool.words_of(TOP, tool.kit_folder(), CRATE)
    except tool.Stop as stop:
        return str(stop)
    return None


def compare():
    packed = kept_module()
    for page in PAGES:
        if make_page(page, packed) != page.path.read_text():
            raise Stop(f"{name_of(page)} is not what its parts make: tools/dev/make_playground.py --page")
        print(f"make_playground: {name_of(page)} is what tools/playground/ and bindings/js/ make")
    if reason := lacking():
        return print(f"make_playground: skipped: the module is not made again, since {reason}")
    with tempfile.TemporaryDirectory() as folder:
        module = make_module(pathlib.Path(folder))
    if module != module_of(PLAYGROUND.path.read_text()):
        version = subprocess.run(["wasm-opt", "--version"], stdout=subprocess.PIPE, text=True).stdout.strip()
        raise Stop(f"the proved libraries and {version} give another module than docs/playground.html has: tools/dev/make_playground.py")
    print(f"make_playground: the module of {len(module)} bytes is what the proved libraries give")


def main():
    if sys.argv[1:] == ["--compare"]:
        return compare()
    if sys.argv[1:] == ["--page"]:
        packed = kept_module()
    elif reason := lacking():
        raise Stop(reason)
    else:
        with tempfile.TemporaryDirectory() as folder:
            packed = packed_module(make_module(pathlib.Path(folder)))
    for page in PAGES:
        page.path.write_text(make_page(page, packed))
        print(f"make_playground: {name_of(page)} has {page.path.stat().st_size} bytes")


if __name__ == "__main__":
    try:
        main()
    except (Stop, OSError) as stop:
        sys.exit(f"make_playground: {stop}")
