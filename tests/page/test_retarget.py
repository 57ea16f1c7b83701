"""The module that is retargeted is the one that the kit makes itself, byte for byte, where it can: of
a crate without a heap."""

import shutil
import subprocess
import sys
import tempfile
import unittest
from functools import partial
from pathlib import Path

from program import ROOT, TimedTest
from test_calls import RT, make_page

sys.path[:0] = [str(ROOT / "page")]
import build  # noqa: E402
import retarget  # noqa: E402

# The crate, over libraries of the page that need no heap, with parameters and answers such as the page's
# exports have. Of the kit's own libraries one has lanes, and one products of 128 bits.
NAME = "without_heap"
OF_THE_REPOSITORY, OF_THE_KIT = ["gsi_word"], ["memchr", "itoa"]
SOURCE = """\
#![tactic(auto)]

use gsi_word::read_block;
use itoa::Buffer;
use memchr::memchr;

#[unsafe(no_mangle)]
pub extern "C" fn count_words(line: &[u8], is_limited: bool, limit: u32, count: &mut usize) -> u8 {
    match read_block(line) {
        Ok(block) => {
            *count = block.len();
            if is_limited && limit < 8 { 1 } else { block.width() }
        }
        Err(_) => 0,
    }
}

#[unsafe(no_mangle)]
pub extern "C" fn has_byte(byte: u8, text: &[u8]) -> bool {
    memchr(byte, text).is_some()
}

#[unsafe(no_mangle)]
pub extern "C" fn count_digits(number: i64) -> usize {
    let mut buffer = Buffer::new();
    buffer.format(number).len()
}
"""

# The names of the target that a module begins with, and parts of a module that are not known.
TARGET_NAMES = 'target datalayout = "e-m:e"\ntarget triple = "x86_64-unknown-linux-gnu"\n'
UNKNOWN = [
    ("", "the module exports nothing"),
    ("attributes #0 = { \"target-cpu\"=\"x86-64-v3\" }\n", "something of x86 is left"),
    ("  %r0 = phi i64 [ 0, %start ]\n", "a block begins with phi"),
    ("define noundef i16 @half() #0 {\nstart:\n  ret i16 1\n}\n", "half answers i16"),
    (TARGET_NAMES, "2 places fit"),
]

# What a crate is made of, and what `rt lib` kept of it, if it was called.
PARTS = ["src", "specs", "proofs", "out/rlib"]


def make_repository(root):
    """Puts the crate into a repository of its own, with the libraries of ours that it names, as they are
    proved; answers its folder."""
    named = build.prove.libraries(ROOT)
    lines = [f"{name}: {' '.join(named[name])}" for name in OF_THE_REPOSITORY]
    lines.append(f"{NAME} wasm64: {' '.join(OF_THE_REPOSITORY + OF_THE_KIT)}")
    (root / "crates.txt").write_text("\n".join(lines) + "\n")
    shutil.copy(ROOT / "HANDLES", root)
    for name in OF_THE_REPOSITORY:
        for part in filter(lambda part: (ROOT / "crates" / name / part).exists(), PARTS):
            shutil.copytree(ROOT / "crates" / name / part, root / "crates" / name / part)
    crate = root / "crates" / NAME
    (crate / "src").mkdir(parents=True)
    (crate / "src" / "lib.rt").write_text(SOURCE)
    return crate


def made_by_rt(root, name):
    """The library of a crate of a repository, as `rt lib` makes it."""
    return root / "crates" / name / "out" / "rlib" / f"{name}.rlib"


class RetargetTest(TimedTest):
    @classmethod
    def setUpClass(cls):
        super().setUpClass()
        if not shutil.which(RT):
            raise unittest.SkipTest("the toolchain that makes the page is missing")
        make_page()

    def setUp(self):
        folder = tempfile.TemporaryDirectory(prefix="retarget-")
        self.addCleanup(folder.cleanup)
        self.folder = Path(folder.name)

    def test_the_module_of_a_crate_without_a_heap_is_the_one_that_the_kit_makes(self):
        root, room = self.folder / "repository", self.folder / "room"
        root.mkdir()
        room.mkdir()
        crate, kit, ours = make_repository(root), build.prove.kit_of(RT), room / "module.wasm"
        build.run(RT, "lib", cwd=crate, stdin=subprocess.DEVNULL)
        libraries = partial(made_by_rt, root)
        module = build.compiled(kit, build.proved_module(kit, crate, room, libraries), room)
        build.linked(kit, module, ours, room)
        kits = (crate / "out" / f"{NAME}.wasm").read_bytes()
        self.assertGreater(len(kits), 10_000)
        self.assertEqual(kits, ours.read_bytes())

    def test_it_stops_at_what_it_does_not_know(self):
        for part, why in UNKNOWN:
            with self.subTest(why), self.assertRaisesRegex(SystemExit, why):
                retarget.retargeted(TARGET_NAMES + part)


if __name__ == "__main__":
    unittest.main()
