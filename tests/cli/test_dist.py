"""`make dist`: the archive runs in a container root that holds nothing else but the C library. So does
the package, where it does what the pages show, and lintian has no note on it. A page that was made
lies beside them."""

import hashlib
import os
import re
import shutil
import subprocess
import sys
import tarfile
import tempfile
import unittest
from pathlib import Path

from pages import SHOWN, answers_in
from program import PROGRAM, ROOT, ProgramTest, answer_of
from test_install import INSTALLED, TOOLS
from test_library import LIBRARY

EXAMPLES = "share/doc/station_check/examples"

TIME = 120


def output_of(*command, **more):
    run = {"check": True, "capture_output": True, "text": True, "timeout": TIME}
    return subprocess.run([str(word) for word in command], **run, **more).stdout


def libraries():
    """The files that the built program is run with."""
    return re.findall(r"(/\S+) \(0x", output_of("ldd", PROGRAM))


def crates_of(name):
    """The crates of the repository that one of them stands on, however far."""
    lines = re.findall(r"^(\w+)[^:\n]*:(.*)$", (ROOT / "crates.txt").read_text(), re.MULTILINE)
    named = {crate: libraries.split() for crate, libraries in lines}
    below = {crate for crate in named[name] if crate in named}
    return below.union(*map(crates_of, below))


def dist(folder, page="no page", library="no library"):
    """What is made, by names, in a folder, with a page beside it and a library in it where there are such."""
    names = [f"PROGRAM={PROGRAM}", f"DIST={folder}", f"PAGE={page}", f"LIBRARY={library}"]
    output_of("make", "-s", "-o", PROGRAM, *names, "dist", cwd=ROOT)
    output_of("sha256sum", "--check", "SHA256SUMS", cwd=folder)
    return {path.name: path for path in folder.iterdir()}


class DistTest(ProgramTest):
    @classmethod
    def setUpClass(cls):
        """What most tests look at is made once."""
        folder = tempfile.TemporaryDirectory()
        cls.addClassCleanup(folder.cleanup)
        top = Path(folder.name)
        cls.made = dist(top / "made")
        version = answer_of(["--version"])[1].decode().split()[1]
        cls.name = f"station_check-{version}-linux-x86_64"

    def archive(self):
        return tarfile.open(self.made[f"{self.name}.tar.gz"])

    def package(self):
        """The Debian package."""
        if not shutil.which("dpkg-deb"):
            self.skipTest("no dpkg-deb is found")
        return next(path for name, path in self.made.items() if name.endswith(".deb"))

    def check_in_root(self, root, program, examples):
        """Runs a program in this root, beside the C library and nothing else."""
        for library in libraries():
            (root / library[1:]).parent.mkdir(parents=True, exist_ok=True)
            shutil.copy(library, root / library[1:])
        own = [] if os.geteuid() == 0 else ["unshare", "--map-root-user"]
        container = [*own, "chroot", str(root)]
        try:
            version = output_of(*container, program, "--version")
        except (FileNotFoundError, subprocess.CalledProcessError) as why:
            self.skipTest(f"no container root can be made here: {why}")
        self.assertEqual(answer_of(["--version"])[1].decode(), version)
        files = [f"{examples}/station_p7.{end}" for end in ("gsi", "csv")]
        accepted = output_of(*container, program, "check", *files)
        self.assertTrue(accepted.startswith("accepted P7: "), accepted)

    def test_the_archive_runs_where_nothing_else_is(self):
        root = self.folder / "root"
        root.mkdir()
        with self.archive() as archive:
            archive.extractall(root)
        place = root / self.name
        output_of("sha256sum", "--check", "SHA256SUMS", cwd=place)
        names = [str(path.relative_to(place)) for path in place.rglob("*") if path.is_file()]
        more = ["SHA256SUMS", *(f"share/doc/station_check/{name}" for name in ("PROVED", "copyright"))]
        self.assertEqual(sorted([*INSTALLED, *more]), sorted(names))
        self.check_in_root(root, f"/{self.name}/bin/station_check", f"/{self.name}/{EXAMPLES}")

    def test_the_same_files_give_the_same_archive(self):
        second = dist(self.folder / "second")
        self.assertEqual(sorted(self.made), sorted(second))
        for name, path in self.made.items():
            self.assertEqual(path.read_bytes(), second[name].read_bytes(), name)

    def test_a_page_that_was_made_lies_beside_the_archive(self):
        self.assertNotIn(".html", "".join(self.made))
        (self.folder / "page.html").write_text("the page")
        made = dist(self.folder / "with", self.folder / "page.html")
        name = self.name.replace("-linux-x86_64", ".html")
        self.assertEqual("the page", made[name].read_text())
        self.assertIn(name, made["SHA256SUMS"].read_text())

    @unittest.skipUnless(LIBRARY.exists(), "the library is not made: make library")
    def test_a_library_that_was_made_lies_in_the_archive_and_in_the_package(self):
        made, place = dist(self.folder / "with", library=LIBRARY), self.folder / self.name
        with tarfile.open(made[f"{self.name}.tar.gz"]) as archive:
            archive.extractall(self.folder)
        self.check_module(place / "share/station_check", {})
        self.assertEqual("libstation_check.so.1", os.readlink(place / "lib/libstation_check.so"))
        self.assertTrue((place / "include/station_check.h").exists())
        self.assertTrue((place / "lib/pkgconfig/station_check.pc").exists())
        note = (place / "share/doc/station_check/PROVED").read_text()
        self.assertRegex(note, r"\nSHA-256 of the library.*: [0-9a-f]{64}\n")
        packages = [path for name, path in made.items() if name.endswith(".deb")]
        for package in packages:
            root = self.folder / "deb"
            output_of("dpkg-deb", "--raw-extract", package, root)
            self.check_module(root / "usr/lib/python3/dist-packages", {"LD_LIBRARY_PATH": str(root / "usr/lib")})
            self.assertEqual("activate-noawait ldconfig\n", (root / "DEBIAN/triggers").read_text())
            self.assertTrue((root / "usr/share/pkgconfig/station_check.pc").exists())
            if shutil.which("lintian"):
                self.check_by_lintian(package)

    def check_module(self, folder, more):
        """The module for Python answers, where it lies, and where nothing says where its library is."""
        text = "import station_check; print(station_check.__file__, station_check.digest(b'', ''))"
        environment = {"PATH": os.environ["PATH"], "PYTHONPATH": str(folder), **more}
        said = output_of(sys.executable, "-c", text, env=environment)
        self.assertEqual(f"{folder / 'station_check.py'} {hashlib.sha256(b'').hexdigest()}  \n", said)

    def test_the_note_says_what_the_program_was_proved_with(self):
        with self.archive() as archive:
            note = archive.extractfile(f"{self.name}/share/doc/station_check/PROVED").read()
            program = archive.extractfile(f"{self.name}/bin/station_check").read()
        crates = crates_of("station_program")
        for word in ["commit: ", "toolchain: ", "needs: Linux on x86-64"]:
            self.assertIn(f"\n{word}", note.decode())
        # Of each crate its log says something, or it is said that there is none.
        line = r"^(\w+)\n  (?:axioms |logic=|no log of make is here)"
        said = re.findall(line, note.decode(), re.MULTILINE)
        self.assertEqual(sorted({"station_program", *crates}), sorted(said))
        self.assertIn(hashlib.sha256(program).hexdigest(), note.decode())

    def test_the_packed_program_is_the_built_one_without_its_symbols(self):
        if not shutil.which("objcopy"):
            self.skipTest("no objcopy is found")
        with self.archive() as archive:
            archive.extract(f"{self.name}/bin/station_check", self.folder)
        packed = self.folder / self.name / "bin" / "station_check"
        for section in [".text", ".rodata", ".data", ".init_array"]:
            parts = []
            for program in (PROGRAM, packed):
                part = self.folder / "part"
                part.write_bytes(b"")
                output_of("objcopy", "--dump-section", f"{section}={part}", program, os.devnull)
                parts.append(part.read_bytes())
            self.assertEqual(*parts, section)
            self.assertTrue(parts[0], section)
        self.assertNotIn(".symtab", output_of("objdump", "--section-headers", packed))

    def test_the_package_has_the_program_and_the_documents(self):
        root = self.folder / "deb"
        output_of("dpkg-deb", "--raw-extract", self.package(), root)
        output_of("md5sum", "--check", "DEBIAN/md5sums", cwd=root)
        for name in ["man/man1/station_check.1.gz", "zsh/vendor-completions/_station_check"]:
            self.assertTrue((root / "usr/share" / name).exists(), name)
        for name in ["README.md", "PROVED", "docs/GUIDE.md", "examples/adjust.py", "copyright", "changelog.gz"]:
            self.assertTrue((root / "usr/share/doc/station-check" / name).exists(), name)
            self.assertTrue((root / "usr/share/doc/station_check" / name).exists(), name)
        control = (root / "DEBIAN/control").read_text()
        self.assertIn("Depends: libc6 (>= 2.", control)
        self.assertIn(f"\nMaintainer: {(ROOT / 'packaging' / 'maintainer').read_text()}", control)

    def test_lintian_has_no_error_and_no_warning(self):
        if not shutil.which("lintian"):
            self.skipTest("no lintian is found")
        self.check_by_lintian(self.package())

    def check_by_lintian(self, package):
        words = ["lintian", "--allow-root", "--fail-on", "error,warning", package]
        done = subprocess.run(words, capture_output=True, text=True, timeout=TIME)
        self.assertEqual((0, ""), (done.returncode, done.stdout))

    def test_the_package_in_an_empty_root_does_what_the_pages_show(self):
        root = self.folder / "root"
        (root / "var/lib/dpkg/info").mkdir(parents=True)
        for name in ("status", "available"):
            (root / "var/lib/dpkg" / name).write_text("")
        (root / "var/lib/dpkg/updates").mkdir()
        fakes = [] if os.geteuid() == 0 else ["--force-not-root"]
        install = ["dpkg", f"--root={root}", "--force-depends", *fakes, "--log=/dev/null"]
        output_of(*install, "--install", self.package())
        documents = root / "usr/share/doc/station_check"
        with self.subTest("in the root"):
            self.check_in_root(root, "/usr/bin/station_check", f"/usr/{EXAMPLES}")
        texts = {page: (documents / page).read_text() for page in SHOWN}
        work = self.folder / "work"
        shutil.copytree(documents / "examples", work / "examples")
        for page, answers in answers_in(work, texts, root / "usr/bin/station_check").items():
            for step, printed in answers:
                with self.subTest(page=page.name, command=step.command):
                    if not step.fits(printed):
                        self.assertEqual(step.printed, printed)
        for name in TOOLS.values():
            self.assertIn("usage: ", output_of(root / "usr/bin" / name, "--help"))
        output_of(*install, "--remove", "station-check")
        self.assertEqual([], [path for path in (root / "usr").rglob("*") if "station" in path.name])


if __name__ == "__main__":
    unittest.main()
