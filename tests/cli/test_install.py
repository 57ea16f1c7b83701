"""`make install` and `make uninstall`: what they put and remove, what pkg-config says of a library, the
links of installed pages, the tools where documents are left out; the version wherever it stands; the
manual pages by groff and mandoc, and what they show."""

import os
import re
import shutil
import subprocess
import sys
import unittest
from pathlib import Path

import worked
from program import PROGRAM, ROOT, ProgramTest, answer_of, answer_to

sys.path.insert(0, str(ROOT / "tools"))
import manuals  # noqa: E402

MAN_PAGES = "share/man/man1"

DOCUMENT_FOLDER = "share/doc/station_check"

DOCUMENTS = [
    *["README.md", "CHANGELOG.md", "capi/example.c"],
    *[f"docs/{path.name}" for kind in ("md", "png", "csv") for path in (ROOT / "docs").glob(f"*.{kind}")],
    *[f"examples/{path.name}" for path in (ROOT / "examples").glob("*.*")],
]

# The scripts that are installed as programs, and the names that they have there.
TOOLS = {
    "adjust.py": "station_check_adjust",
    "check_folder.py": "station_check_folder",
    "prepare.py": "station_check_prepare",
    "residuals.py": "station_check_residuals",
}

SHARED = [
    "share/bash-completion/completions/station_check",
    "share/fish/vendor_completions.d/station_check.fish",
    *[f"{MAN_PAGES}/{name}.1" for name in ["station_check", *TOOLS.values()]],
    "share/zsh/site-functions/_station_check",
]

# Where each file is installed from.
SOURCES = {name: f"packaging/{name}" for name in SHARED}
SOURCES |= {f"{DOCUMENT_FOLDER}/{name}": name for name in DOCUMENTS}
TOOL_FILES = [path.name for kind in ("py", "html") for path in (ROOT / "examples").glob(f"*.{kind}")]
SOURCES |= {f"share/station_check/{name}": f"examples/{name}" for name in TOOL_FILES}
SOURCES |= {f"bin/{name}": f"examples/{script}" for script, name in TOOLS.items()}

INSTALLED = ["bin/station_check", *SOURCES]

# What is installed beside it where the library was made: from where, and the link to it.
LIBRARY_SOURCES = {
    "include/station_check.h": "capi/station_check.h",
    "lib/pkgconfig/station_check.pc": "capi/station_check.pc",
    "share/station_check/station_check.py": "capi/station_check.py",
}
LIBRARY_NAME, LIBRARY_LINK = "lib/libstation_check.so.1", "lib/libstation_check.so"

# A link to a file of the sources, which are not installed.
TO_SOURCES = re.compile(r"\[([^][]*)\]\((?:\.\./)*(?:(?:bench|conformance|crates|page|tests)/[^)]*|HANDLES|crates\.txt)\)")
LINK = re.compile(r"\]\(([^)#:]+)(?:#[^)]*)?\)")

OPTIONS = re.compile(r"--[a-z-]+")

# A command in the manual page, and what it prints.
SHOWN = re.compile(r"^\$ (.*)\n((?:(?![$.]).*\n)*)", re.MULTILINE)


class InstallTest(ProgramTest):
    def make(self, target, *settings, library="no library"):
        """Runs make for the built program and a library, and doesn't build them anew."""
        paths = [f"PROGRAM={PROGRAM}", f"LIBRARY={library}"]
        command = ["make", "-s", "-o", PROGRAM, *paths, target, *settings]
        subprocess.run(command, cwd=ROOT, check=True, capture_output=True, timeout=60)

    def files(self):
        paths = [path for path in self.folder.rglob("*") if path.is_file()]
        return sorted(str(path.relative_to(self.folder)) for path in paths)

    def test_what_is_installed_is_removed(self):
        for prefix, settings in [
            ("", [f"PREFIX={self.folder}"]),
            ("usr/local/", [f"DESTDIR={self.folder}"]),
            ("a b/", [f"DESTDIR={self.folder}", "PREFIX=/a b"]),
        ]:
            with self.subTest(settings):
                other = self.folder / prefix / "bin" / "other"
                other.parent.mkdir(parents=True, exist_ok=True)
                other.write_bytes(b"")
                self.make("install", *settings)
                self.assertEqual(sorted(prefix + name for name in ["bin/other", *INSTALLED]), self.files())
                installed = self.folder / prefix / "bin" / "station_check"
                version = answer_to([installed, "--version"])[1]
                self.assertEqual(answer_of(["--version"])[1], version)
                for name, source in SOURCES.items():
                    text, copy = (ROOT / source).read_bytes(), self.folder / prefix / name
                    if name.endswith(".md"):
                        text = TO_SOURCES.sub(r"\1", text.decode()).encode()
                    self.assertEqual(text, copy.read_bytes(), name)
                self.make("uninstall", *settings)
                self.assertEqual([f"{prefix}bin/other"], self.files())
                self.assertFalse((self.folder / prefix / DOCUMENT_FOLDER).exists())
                other.unlink()


    def test_a_library_that_was_made_is_installed_and_removed(self):
        library, prefix = self.folder / "made" / Path(LIBRARY_NAME).name, self.folder / "here"
        library.parent.mkdir()
        library.write_text("the library")
        self.make("install", f"PREFIX={prefix}", library=library)
        self.assertEqual("the library", (prefix / LIBRARY_NAME).read_text())
        self.assertEqual(library.name, os.readlink(prefix / LIBRARY_LINK))
        for name, source in LIBRARY_SOURCES.items():
            self.assertEqual((ROOT / source).read_bytes(), (prefix / name).read_bytes())
        self.check_pkg_config(prefix)
        self.make("uninstall", f"PREFIX={prefix}", library=library)
        self.assertEqual([], [path for path in prefix.rglob("*") if path.is_file() or path.is_symlink()])

    def check_pkg_config(self, prefix):
        """What pkg-config says of the library that was installed here."""
        if not shutil.which("pkg-config"):
            return
        paths = {**os.environ, "PKG_CONFIG_PATH": str(prefix / "lib" / "pkgconfig")}
        status, said, stderr = answer_to(["pkg-config", "--cflags", "--libs", "station_check"], env=paths)
        self.assertEqual((0, b""), (status, stderr))
        include, folder, name = said.decode().split()
        self.assertTrue((Path(include.removeprefix("-I")) / "station_check.h").exists(), include)
        self.assertTrue((Path(folder.removeprefix("-L")) / Path(LIBRARY_LINK).name).exists(), folder)
        self.assertEqual("-lstation_check", name)

    def test_each_link_of_an_installed_page_leads_to_a_file_that_is_there(self):
        self.make("install", f"PREFIX={self.folder}")
        for name in DOCUMENTS:
            page = self.folder / DOCUMENT_FOLDER / name
            for link in LINK.findall(page.read_text()) if name.endswith(".md") else []:
                with self.subTest(name, link=link):
                    self.assertTrue((page.parent / link).exists())

    def test_the_tools_work_where_documents_are_left_out(self):
        self.make("install", f"PREFIX={self.folder}")
        shutil.rmtree(self.folder / "share" / "doc")
        work = self.folder / "work"
        work.mkdir()
        for name in ["station_p7.gsi", "station_p7.csv"]:
            shutil.copy(ROOT / "examples" / name, work)
        path = f"{self.folder / 'bin'}{os.pathsep}{os.environ['PATH']}"
        for script in [
            "station_check list station_p7.gsi | station_check_adjust | cmp - station_p7.csv",
            "station_check report --csv station_p7.gsi P7 | station_check_residuals P7",
            "station_check_prepare station_p7.gsi copy.txt --set P7 3 --why 'a test'",
            "station_check_folder .",
        ]:
            with self.subTest(script):
                environment = {**os.environ, "PATH": path, "PYTHONDONTWRITEBYTECODE": "1"}
                status, *said = answer_to(["bash", "-c", script], cwd=work, env=environment)
                self.assertEqual(0, status, said)

    def test_a_tool_says_the_name_by_which_it_was_called(self):
        self.make("install", f"PREFIX={self.folder}")
        for name, words in [
            ("station_check_adjust", ["/dev/null"]),
            ("station_check_folder", [self.folder / "missing"]),
            ("station_check_residuals", ["S1"]),
        ]:
            with self.subTest(name):
                status, _, said = answer_to([self.folder / "bin" / name, *words], stdin=subprocess.DEVNULL)
                self.assertNotEqual(0, status)
                self.assertTrue(said.decode().startswith(f"{name}: "), said)


class ManPageTest(ProgramTest):
    def test_groff_has_no_warning(self):
        self.check_page("groff", ["-man", "-Tutf8", "-ww", "-z"])

    def test_mandoc_has_no_warning_and_no_note_of_style(self):
        self.check_page("mandoc", ["-Tlint"])

    def check_page(self, program, args):
        if not shutil.which(program):
            self.skipTest(f"no {program} is found")
        for page in [name for name in SHARED if name.startswith(MAN_PAGES)]:
            with self.subTest(page):
                words = [program, *args, ROOT / SOURCES[page]]
                done = subprocess.run(words, capture_output=True, text=True, timeout=60)
                self.assertEqual((0, "", ""), (done.returncode, done.stdout, done.stderr))

    def test_pages_of_tools_and_titles_are_up_to_date(self):
        """Where this fails, `python3 tools/manuals.py` makes them anew."""
        for path, text in manuals.pages():
            with self.subTest(path.name):
                self.assertEqual(text, path.read_text())

    def test_the_version_is_that_of_the_first_heading_of_the_changes(self):
        version, _ = manuals.release()
        self.assertEqual(f"station_check {version}\n", answer_of(["--version"])[1].decode())
        for name, line in [
            ("station_check.py", '__version__ = "{}"'),
            ("station_check.h", '#define STATION_CHECK_VERSION "{}"'),
            ("station_check.pc", "Version: {}"),
        ]:
            self.assertIn(line.format(version), (ROOT / "capi" / name).read_text().splitlines(), name)
        self.assertTrue(worked.REPORT.startswith(f"station_check {version}: ".encode()))

    def test_its_examples_print_what_it_shows(self):
        """Of the examples' job, and of S1 with its sheet and a table of four decimals."""
        for name, source in [("job.gsi", "job.gsi"), ("field.gsi", "station_s1.gsi"), ("sheet.csv", "station_s1.csv")]:
            shutil.copy(ROOT / "examples" / source, self.folder / name)
        (self.folder / "table.csv").write_text("A,0.0000\nB,50.0000\n")
        examples = manuals.MAN_PAGE.read_text().replace("\\-", "-").partition(".SH EXAMPLES\n")[2]
        shown = [(command, printed) for command, printed in SHOWN.findall(examples) if printed]
        self.assertGreater(len(shown), 2)
        for command, printed in shown:
            with self.subTest(command):
                script = f'station_check() {{ "{PROGRAM.resolve()}" "$@"; }}; {command}'
                _, stdout, stderr = answer_to(["bash", "-c", script], cwd=self.folder)
                self.assertEqual(printed, (stdout + stderr).decode())

    def test_it_has_each_command_and_option_of_the_help(self):
        page = manuals.MAN_PAGE.read_text().replace("\\-", "-")
        for command in ["compare", "directions", "check", "means", "list", "words", "explain"]:
            text = answer_of([command, "--help"])[1].decode()
            self.assertIn(f"station_check {command}\n", page)
            for option in OPTIONS.findall(text):
                with self.subTest(command, option=option):
                    self.assertIn(option, page)


if __name__ == "__main__":
    unittest.main()
