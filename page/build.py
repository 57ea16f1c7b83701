"""Makes the page: `python3 page/build.py [--proved] [--jobs N] OUT.html`, as `make page` calls it.

rattle proves the crate station_page and compiles it for x86-64. On the way the module that it hands
to clang is kept; it is retargeted to wasm64, compiled by the kit's clang with the marks that rattle
gives for wasm64, and linked with the heap by the kit's linker. Binaryen's `wasm-opt` lowers it to a
module with 32-bit memory, which every browser runs. README.md says what is trusted of that, and why
it isn't done by `rt lib` alone.

`--proved` takes the libraries below as `rt ci` left them, which has proved them: the gate calls it
so. `--jobs` processes share the proof of the crate itself.
"""

import argparse
import base64
import gzip
import hashlib
import json
import re
import shutil
import subprocess
import sys
import tempfile
from pathlib import Path
from typing import Any, Callable

HERE = Path(__file__).resolve().parent
ROOT = HERE.parent
sys.path[:0] = [str(ROOT / "tools")]
import manuals  # noqa: E402
import prove  # noqa: E402
import retarget  # noqa: E402
import scripts  # noqa: E402

CRATE = ROOT / "crates" / "station_page"

# Where what is made on the way stays: the tests link it again with another heap.
ROOM = ROOT / "build" / "page"

# The files of the example that the page shows: a job without codes, and a table of directions.
EXAMPLE = [ROOT / "examples" / name for name in ("job.gsi", "station_p7_directions.csv")]

# How rattle has clang compile a module for wasm64.
TARGET = [f"--target={retarget.TRIPLE}", "-mcpu=lime1"]
CAREFUL = (
    "-mllvm -expand-div-rem-bits=64 -mllvm -expand-fp-convert-bits=64 -ffunction-sections "
    "-fdata-sections -mllvm -trap-unreachable -mllvm -disable-machine-licm -mllvm "
    "-disable-postra-machine-licm -mllvm -sink-common-insts=false --no-default-config "
    "-no-canonical-prefixes -fintegrated-cc1 -fno-crash-diagnostics -Werror"
).split()
# The page is sent and kept: its code is made for size, and no run was found to take longer for it.
FOR_SIZE = "-Os"
FREE_STANDING = ["-O2", "-ffreestanding", "-nostdinc", "-fno-builtin"]

# How the module with 64-bit memory becomes one with 32-bit memory, and what such modules use; those
# functions stand first that are called most, and no tool is named, so that it packs better.
LOWERING = (
    "--enable-memory64 --enable-bulk-memory --enable-sign-ext --enable-mutable-globals "
    "--enable-nontrapping-float-to-int --enable-multivalue --enable-simd --enable-reference-types "
    "--memory64-lowering --reorder-functions --strip-producers --strip-target-features"
).split()
NOT_LOWERED = (
    "page: wasm-opt (binaryen) is missing: this page has 64-bit memory, and runs in Chrome, Edge and "
    "Firefox alone"
)

# The script of a page that is run as it stands in it.
SCRIPT = re.compile(r"<script>(.*?)</script>", re.DOTALL)

# A clang that keeps a copy of the module that it compiles.
KEEPING_CLANG = """\
#!/bin/sh
for word; do case "$word" in *.bc) cp "$word" '{kept}' ;; esac; done
exec '{clang}' "$@"
"""


def run(*command: str | Path, **how: Any) -> str:
    """Runs a command; where it fails, shows what it said, and stops."""
    words = [str(word) for word in command]
    ran = subprocess.run(words, stdout=subprocess.PIPE, stderr=subprocess.STDOUT, text=True, **how)
    if ran.returncode:
        sys.exit(f"{ran.stdout[-3000:]}\npage: this failed: {words[0]} .. {words[-1]}")
    return ran.stdout


def of_gate(name: str) -> Path:
    """Where `rt ci` leaves the library of a crate."""
    return ROOT / "crates" / name / "out" / "rlib" / f"{name}.rlib"


def keeping_toolchain(kit: Path, kept: Path, tools: Path) -> None:
    """Makes a copy of the kit's toolchain, by links, whose clang keeps the module there."""
    (tools / "bin").mkdir()
    (tools / "lib").symlink_to(kit / "toolchain" / "lib")
    for tool in (kit / "toolchain" / "bin").iterdir():
        if tool.name != "clang":
            (tools / "bin" / tool.name).symlink_to(tool)
    clang = tools / "bin" / "clang"
    clang.write_text(KEEPING_CLANG.format(kept=kept, clang=kit / "toolchain" / "bin" / "clang"))
    clang.chmod(0o755)


def proved_module(kit: Path, crate: Path, room: Path, built: Callable[[str], Path], jobs: int = 1) -> Path:
    """The module that rattle makes of a crate that it proves for x86-64, over the libraries that are
    built there. Such a build is a proof of its own: it takes none that a check before it made, but for
    what a build of the same sources kept."""
    kept = room / "module.bc"
    # (rt takes no links inside the repository)
    with tempfile.TemporaryDirectory(prefix="page-toolchain-") as tools:
        keeping_toolchain(kit, kept, Path(tools))
        words = [*prove.words_of(kit, crate, built), "--crate-type", "staticlib", "--jobs", str(jobs)]
        words += ["--incremental", "out/incremental"]
        to = ["--toolchain", tools, "-o", str(room / "lib.a")]
        run(kit / "bin" / "rattle", "build", *words, *to, cwd=crate)
    return kept


def compiled(kit: Path, module: Path, room: Path) -> Path:
    """Retargets a module and compiles it; answers where its code is."""
    clang = kit / "toolchain" / "bin" / "clang"
    old, new, made = room / "old.ll", room / "new.ll", room / "page.o"
    run(clang, "-x", "ir", module, "-S", "-emit-llvm", "-Xclang", "-disable-llvm-passes", "-o", old)
    new.write_text(retarget.retargeted(old.read_text()))
    run(clang, *TARGET, *CAREFUL, FOR_SIZE, "-c", "-x", "ir", new, "-o", made)
    return made


def linked(kit: Path, made: Path, to: Path, room: Path, *of_heap: str) -> None:
    """Links a compiled module with the heap, which is compiled with these options."""
    tools, heap, archive = kit / "toolchain" / "bin", room / "heap.o", room / "libpage.a"
    run(tools / "clang", *TARGET, *FREE_STANDING, *of_heap, "-c", HERE / "heap.c", "-o", heap)
    archive.unlink(missing_ok=True)
    run(tools / "llvm-ar", "--format=gnu", "rcs", archive, made, heap)
    link = kit / "bin" / "rattle-link"
    run(link, "--target", retarget.TRIPLE, "--toolchain", kit / "toolchain", "-o", to, archive)


def lowered(wasm64: Path, to: Path) -> Path:
    """The module with 32-bit memory, which is put there; the one with 64 bits, with a word, where no
    `wasm-opt` is found."""
    if not shutil.which("wasm-opt"):
        print(NOT_LOWERED, file=sys.stderr)
        return wasm64
    run("wasm-opt", *LOWERING, wasm64, "-o", to)
    return to


def git(*words: str) -> str:
    """What git says of the repository; nothing where it isn't one."""
    try:
        ran = subprocess.run(["git", *words], cwd=ROOT, capture_output=True, text=True)
    except FileNotFoundError:
        return ""
    return ran.stdout.strip()


def version() -> str:
    """The version of the page, and the commit that it is made of."""
    changed = ", with changes" if git("status", "--porcelain") else ""
    commit = git("rev-parse", "--short=12", "HEAD") or "not known"
    return f"{manuals.release()[0]} ({commit}{changed})"


def digest_of(script: str) -> str:
    """The digest of a script, as the policy of content takes it: no other runs."""
    return base64.b64encode(hashlib.sha256(script.encode()).digest()).decode()


def script_in(page: str) -> str:
    """The script that runs at once in a page."""
    [script] = SCRIPT.findall(page)
    return script


def packed(data: bytes) -> str:
    """Bytes as the page has them: as gzip packs them, in base 85, whose letters end no script."""
    text = base64.b85encode(gzip.compress(data, mtime=0)).decode()
    if "<!--" in text:
        sys.exit("page: what is packed would begin a comment")
    return text


def later() -> str:
    """The script that the page runs once it is unpacked. No name of the page's script stands in it for
    another thing."""
    scripts.joined([*scripts.SCRIPTS["page"], *scripts.SCRIPTS["later"]])
    return scripts.dense(scripts.joined(scripts.SCRIPTS["later"]))


def stored() -> dict[str, Any]:
    """What the page has beside the module: the script of the worker, and that which is run later, its
    texts and those of faults, by their languages, and the files of its example."""
    texts = {folder: scripts.by_language(folder) for folder in (scripts.TEXTS, "refusals")}
    example = {path.name: path.read_bytes().decode() for path in EXAMPLE}
    calls = scripts.dense(scripts.joined(scripts.SCRIPTS["calls"]))
    # (modules that both scripts have are packed once, as long as these stand beside each other)
    return {"calls": calls, "later": later(), **texts, "example": example}


def page(module: bytes) -> str:
    """The text of the page around a module, with its style and its scripts in it."""
    script = scripts.with_texts(scripts.joined(scripts.SCRIPTS["page"]), scripts.AT_ONCE)
    whole = scripts.filled((HERE / "station_check.html").read_text(), {
        "page": scripts.dense(script),
        "style": scripts.styled("page"),
        "MODULE": packed(module),
        "STORED": packed(json.dumps(stored(), ensure_ascii=False).encode()),
        "SHA256": hashlib.sha256(module).hexdigest(),
        "COMMIT": version(),
    })
    return scripts.filled(whole, {"SCRIPT": digest_of(script_in(whole)), "LATER": digest_of(later())})


def asked_for() -> argparse.Namespace:
    """What the words of the command line ask for."""
    words = argparse.ArgumentParser(description="Makes the page that checks in a browser.")
    words.add_argument("out", metavar="OUT.html", type=Path)
    proved = "the libraries lie there as rt ci proved them"
    words.add_argument("--proved", action="store_true", help=proved)
    words.add_argument("--jobs", type=int, default=1, help="processes that share the proof")
    return words.parse_args()


def main() -> None:
    asked, kit = asked_for(), prove.kit_of(prove.RT)
    built = of_gate if asked.proved else prove.made
    shutil.rmtree(ROOM, ignore_errors=True)
    ROOM.mkdir(parents=True)
    wasm = ROOM / "page.wasm"
    proved = proved_module(kit, CRATE, ROOM, built, asked.jobs)
    linked(kit, compiled(kit, proved, ROOM), wasm, ROOM)
    module = lowered(wasm, ROOM / "page32.wasm")
    asked.out.write_text(page(module.read_bytes()))
    print(f"{asked.out}: {asked.out.stat().st_size} bytes")


if __name__ == "__main__":
    main()
