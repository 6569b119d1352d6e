"""Tests of the program pem_index and of its wrapper: what they print is what the oracle says.

    bin/pem_index < /dev/null
    python3 tests/program/test_pem_index.py
"""
import os
import pathlib
import shutil
import subprocess
import sys
import tempfile
import unittest

ROOT = pathlib.Path(__file__).resolve().parents[2]
sys.path.insert(0, str(ROOT / "tests/oracle"))

import oracle

WRAPPER = ROOT / "bin/pem_index"
PROGRAM = ROOT / "target/bin/pem_index"
CRATE = ROOT / "crates/pem_index"
CHAIN = (ROOT / "examples/chain.pem").read_bytes()
GRAMMARS = {"lax": 1, "standard": 2, "strict": 3}
MESSAGE = b"-----BEGIN A-----\nZg==\n-----END A-----\n"
SHORTEST = b"-----BEGIN ----------END -----"
# What the program takes. The library's limit is higher, so the program refuses more by itself.
INPUT_LIMIT = 65536
TOO_LONG = b"2 0\n"
ENTRY = 6
TABLE_SIZE = 1 + ENTRY * (INPUT_LIMIT // len(SHORTEST))
USAGE = b"pem_index: give one grammar (lax, standard, strict or a number) and the text on standard input\n"
UNREADABLE = b"pem_index: standard input cannot be read\n"
UNWRITABLE = b"pem_index: standard output cannot be written\n"
NO_RT = b"pem_index: it is built by rt, Rattle's command, which is not on the path\n"
NO_ROOM = b"pem_index: it has to be built first, and target/ cannot be written\n"
BUILDING = b"pem_index: proving and building it first; this takes three to four minutes, and is done once\n"
NOT_BUILT = b"pem_index: it could not be built; target/pem_index.log says why\n"
NOT_RUN = b"pem_index: target/bin/pem_index cannot be run\n"
TEXTS = [
    b"",
    b"  ",
    MESSAGE,
    MESSAGE + MESSAGE,
    MESSAGE[:-1] + MESSAGE,
    MESSAGE + b"x",
    MESSAGE.replace(b"Zg==", b"Zh=="),
    MESSAGE + MESSAGE.replace(b"Zg==", b"Zm9\n="),
    MESSAGE.replace(b"Zg==", b"Zg="),
    MESSAGE.replace(b"Zg==", b"Zg=\n="),
    MESSAGE.replace(b"Zg==", b"Zg=\n ="),
    MESSAGE.replace(b"END A", b"END B"),
    MESSAGE.replace(b"A", b"A" * 65),
    MESSAGE.replace(b"A", b"X509 CRL"),
    b"".join(MESSAGE.replace(b"A", label) for label in oracle.FAMILIES),
    MESSAGE.replace(b"A", b"CERTIFICATE").replace(b"END ", b"END X509 "),
    MESSAGE.replace(b"A", b""),
    MESSAGE.replace(b"\n", b"\r\n"),
    b" \t" + MESSAGE,
    CHAIN,
    CHAIN[:-1],
    CHAIN.replace(b"\n", b""),
    bytes(range(256)),
    SHORTEST * (INPUT_LIMIT // len(SHORTEST)),
    SHORTEST.ljust(INPUT_LIMIT),
    SHORTEST.ljust(INPUT_LIMIT + 1),
    SHORTEST.ljust(INPUT_LIMIT + 2),
    SHORTEST * (INPUT_LIMIT // len(SHORTEST) + 1),
    b"-" * 1000000,
    SHORTEST.ljust(oracle.TEXT_LIMIT + 1),
]

# The texts that the README says are refused, and what lax, standard and strict answer.
EVERYDAY = [
    (b"Subject: CN = a\n" + CHAIN, (3, 3, 3)),
    (MESSAGE + b"Bag Attributes\n" + MESSAGE, (3, 3, 3)),
    (CHAIN + b"# the root\n", (3, 3, 3)),
    (CHAIN + b"\0", (3, 3, 3)),
    (b"\xef\xbb\xbf" + CHAIN, (3, 3, 3)),
    (CHAIN.decode().encode("utf-16"), (3, 3, 3)),
    (MESSAGE.replace(b"Zg==", b"Proc-Type: 4,ENCRYPTED\nDEK-Info: AES-128-CBC,00\n\nZg=="), (5, 4, 4)),
    (b"\n" + MESSAGE, (0, 3, 3)),
    (MESSAGE + b"\n" + MESSAGE, (0, 3, 3)),
    (MESSAGE.replace(b"Zg==", b"Zm 9v"), (0, 4, 4)),
    (MESSAGE.replace(b"\n", b""), (0, 4, 4)),
    (MESSAGE.replace(b"\n", b" \n"), (0, 0, 4)),
    (MESSAGE.replace(b"Zg==", b"A" * 76), (0, 0, 4)),
    (MESSAGE[:-1], (0, 0, 5)),
    (MESSAGE.replace(b"A", b"TRUSTED CERTIFICATE"), (0, 0, 0)),
]


def lines(text, grammar):
    """What the program has to print: by the oracle, but for its own limit, and without the families."""
    if len(text) > INPUT_LIMIT:
        return TOO_LONG
    answer = oracle.index(text, grammar, TABLE_SIZE)
    if answer.number:
        return b"%d %d\n" % (answer.number, answer.place)
    entries = [answer.out[1 + ENTRY * k:1 + ENTRY * (k + 1)] for k in range(answer.out[0])]
    return b"".join(b"%d %d %s %d\n" % (start, length, text[at:at + size], data) for start, length, at, size, data, _ in entries)


def run(program, *words, **streams):
    done = subprocess.run([program, *words], stdout=subprocess.PIPE, stderr=subprocess.PIPE, **streams)
    return done.returncode, done.stdout, done.stderr


def wrapped(streams, *words, text):
    """The wrapper with streams that the shell opens or closes for it."""
    return run("bash", "-c", f'"$0" "$@" {streams}', str(WRAPPER), *words, input=text)


def status(printed):
    """1 for a refusal, which is two numbers; a message's line has more."""
    return int(printed.count(b"\n") == 1 and printed.count(b" ") == 1)


class Program(unittest.TestCase):
    def test_output_that_the_gate_compares(self):
        word = (CRATE / "args").read_text().strip()
        self.assertEqual((CRATE / "stdout").read_bytes(), lines((CRATE / "stdin").read_bytes(), GRAMMARS[word]))

    def test_texts_by_name_and_by_number(self):
        for text in TEXTS:
            for name, number in GRAMMARS.items():
                for word in (name, str(number)):
                    with self.subTest(text=text[:60], word=word):
                        self.assertEqual(run(PROGRAM, word, input=text), (0, lines(text, number), b""))

    def test_everyday_texts_that_are_refused(self):
        for text, numbers in EVERYDAY:
            for name, number in zip(GRAMMARS, numbers):
                with self.subTest(text=text[:60], grammar=name):
                    ended, printed, _ = run(WRAPPER, name, input=text)
                    self.assertEqual((ended, int(printed.split()[0]) if ended else 0), (int(number > 0), number))

    def test_lax_is_the_default(self):
        for text in TEXTS:
            self.assertEqual(run(PROGRAM, input=text), (0, lines(text, 1), b""))

    def test_unknown_numbers_come_before_every_other_refusal(self):
        for word in ("0", "4", "257", "999999999"):
            for text in (MESSAGE, b"", b"x", SHORTEST.ljust(INPUT_LIMIT), SHORTEST.ljust(INPUT_LIMIT + 1)):
                self.assertEqual(run(PROGRAM, word, input=text), (0, b"1 0\n", b""))

    def test_longer_input_is_refused_though_the_library_takes_it(self):
        text = SHORTEST.ljust(INPUT_LIMIT + 1)
        self.assertEqual(oracle.index(text, 1, TABLE_SIZE).number, 0)
        self.assertEqual(run(PROGRAM, "lax", input=text), (0, TOO_LONG, b""))

    def test_leading_zeros_of_a_number(self):
        self.assertEqual(run(PROGRAM, "003", input=MESSAGE), run(PROGRAM, "strict", input=MESSAGE))

    def test_unknown_words_get_one_plain_line(self):
        for word in ("Lax", "STRICT", "stric", "strictt", "", "-1", "+1", "1 ", "4294967297", "9" * 200, "x" * 5000, "--help"):
            with self.subTest(word=word[:20]):
                self.assertEqual(run(PROGRAM, word, input=MESSAGE), (0, USAGE, b""))
                self.assertEqual(run(WRAPPER, word, input=MESSAGE), (2, b"", USAGE))

    def test_two_words_get_one_plain_line(self):
        self.assertEqual(run(WRAPPER, "lax", "strict", input=MESSAGE), (2, b"", USAGE))

    def test_unreadable_input_gets_one_plain_line(self):
        folder = os.open(tempfile.gettempdir(), os.O_RDONLY)
        self.assertEqual(run(PROGRAM, "lax", stdin=folder), (0, UNREADABLE, b""))
        self.assertEqual(run(WRAPPER, "lax", stdin=folder), (2, b"", UNREADABLE))
        os.close(folder)

    def test_closed_input_gets_one_plain_line(self):
        closed = ["bash", "-c", '"$0" lax <&-', str(WRAPPER)]
        self.assertEqual(run(*closed), (2, b"", UNREADABLE))

    def test_closed_output_gets_one_plain_line(self):
        for text in (b"", MESSAGE, MESSAGE + b"x"):
            self.assertEqual(wrapped(">&-", "lax", text=text), (2, b"", UNWRITABLE))

    def test_output_that_cannot_be_written_gets_one_plain_line(self):
        for streams in ("> /dev/full", "1< /dev/null"):
            for text in (MESSAGE, MESSAGE + b"x", SHORTEST * (INPUT_LIMIT // len(SHORTEST))):
                self.assertEqual(wrapped(streams, "lax", text=text), (2, b"", UNWRITABLE))

    def test_nothing_to_write_needs_no_room(self):
        self.assertEqual(wrapped("> /dev/full", "lax", text=b""), (0, b"", b""))

    def test_a_complaint_that_cannot_be_written_shows_by_its_status(self):
        for streams in ("2>&-", "2> /dev/full", ">&- 2>&-", "> /dev/full 2> /dev/full", "<&- 2>&-"):
            self.assertEqual(wrapped(streams, "stric", text=MESSAGE), (2, b"", b""))

    def test_input_in_pieces(self):
        pieces = ["bash", "-c", f'for i in 1 2 3 4 5; do head -c 13; sleep 0.02; done < "{CRATE}/stdin" | "$0" lax', str(PROGRAM)]
        self.assertEqual(run(*pieces)[1], lines((CRATE / "stdin").read_bytes()[:65], 1))

    def test_wrapper_prints_the_same_and_tells_refusals_by_its_status(self):
        for text in TEXTS:
            for name, number in GRAMMARS.items():
                printed = lines(text, number)
                self.assertEqual(run(WRAPPER, name, input=text), (status(printed), printed, b""))

    def test_first_command_of_the_readme_prints_what_it_shows(self):
        readme = (ROOT / "README.md").read_text()
        printed = run(WRAPPER, "strict", input=CHAIN)[1].decode()
        self.assertIn("\n    bin/pem_index strict < examples/chain.pem\n", readme)
        self.assertIn("\n\n" + "".join("    " + line for line in printed.splitlines(keepends=True)) + "\n", readme)


class Clone(unittest.TestCase):
    """A clone of the wrapper alone, with an rt that is a script, and with a target/ that root cannot write either."""

    def setUp(self):
        folder = tempfile.TemporaryDirectory()
        self.addCleanup(folder.cleanup)
        self.folder = pathlib.Path(folder.name)
        self.program = self.folder / "target/bin/pem_index"
        for name in ("bin", "crates/pem_index", "path"):
            (self.folder / name).mkdir(parents=True)
        (self.folder / "crates.txt").touch()
        shutil.copy(WRAPPER, self.folder / "bin")

    def rt(self, *lines):
        """Puts an rt on the path that does this."""
        script = self.folder / "path/rt"
        script.write_text("\n".join(["#!/bin/sh", *lines, ""]))
        script.chmod(0o755)

    def run_wrapper(self, path=os.environ["PATH"]):
        path = f"{self.folder}/path:{path}"
        return run(self.folder / "bin/pem_index", "lax", input=MESSAGE, env={**os.environ, "PATH": path})

    def files(self):
        return sorted(path.relative_to(self.folder) for path in self.folder.rglob("*"))

    def put_program(self):
        self.program.parent.mkdir(parents=True)
        shutil.copy(PROGRAM, self.program)

    def test_a_program_that_is_built_is_run_and_nothing_is_written(self):
        self.put_program()
        before = self.files()
        self.assertEqual(self.run_wrapper(), (0, lines(MESSAGE, 1), b""))
        self.assertEqual(self.files(), before)

    def test_it_is_built_where_it_is_missing_or_older(self):
        self.rt('echo "$@"', "mkdir -p out", f"cp {PROGRAM} out", "touch -d 2001-01-01 out/pem_index")
        built = (0, lines(MESSAGE, 1), BUILDING)
        self.assertEqual(self.run_wrapper(), built)
        self.assertEqual((self.folder / "target/pem_index.log").read_text(), "run\n")
        self.assertEqual(self.run_wrapper(), (0, lines(MESSAGE, 1), b""))
        os.utime(self.program, (0, 0))
        self.assertEqual(self.run_wrapper(), built)

    def test_a_clone_that_cannot_be_written_gets_one_plain_line(self):
        self.rt("exit 0")
        target = self.folder / "target"
        target.touch()
        self.assertEqual(self.run_wrapper(), (2, b"", NO_ROOM))
        target.unlink()
        (target / "pem_index.log").mkdir(parents=True)
        self.assertEqual(self.run_wrapper(), (2, b"", NO_ROOM))

    def test_a_build_that_fails_says_where_to_look(self):
        self.rt("echo not proved", "exit 1")
        self.assertEqual(self.run_wrapper(), (2, b"", BUILDING + NOT_BUILT))
        self.assertEqual((self.folder / "target/pem_index.log").read_text(), "not proved\n")

    def test_without_rt_nothing_is_built(self):
        tools = self.folder / "path"
        for tool in ("bash", "dirname", "env", "find", "readlink"):
            (tools / tool).symlink_to(shutil.which(tool))
        self.assertEqual(self.run_wrapper(path="/nowhere"), (2, b"", NO_RT))

    def test_a_program_that_cannot_be_run_gets_one_plain_line(self):
        self.put_program()
        for content in ("#!/nowhere\n", "#!/bin/sh\necho 0 39 A 1; exit 1\n", "#!/bin/sh\nkill -9 $$\n"):
            self.program.write_text(content)
            self.assertEqual(self.run_wrapper(), (2, b"", NOT_RUN))


if __name__ == "__main__":
    unittest.main()
