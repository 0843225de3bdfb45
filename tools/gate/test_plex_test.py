"""plex-test: what it finds, runs, compares, tells and writes, in folders made for it."""
import os
import pathlib
import signal
import subprocess
import sys
import time
import xml.etree.ElementTree as ElementTree
from typing import Dict, List, Mapping, NamedTuple, Optional, Tuple, Union

import pytest

from gate import harness
from plextools import VERSION
from plextools.show import differences

TOOL = harness.ROOT / "tools" / "bin" / "plex-test"
EXAMPLES = harness.ROOT / "examples"
METER, FAULTS, REFUSED = "meter", "release_and_restart", "guide/first_refusal"
LEAST_EXAMPLES = 85
# Seconds within which the command ends, on a machine that does much else, and a process that was
# killed; those that a program takes which does not end; and those between two looks.
SOON, GONE, LONG, LOOK = harness.WHILE, 300, 2 * harness.WHILE, 0.1
LIMITS = 1, 10, 100  # of --timeout, of which the first counts within which a program has begun
STUB = f"""#!/bin/sh
if [ "$1" = --version ]; then
    echo "plex {VERSION}" >&2
    exit
fi
"""


class Told(NamedTuple):
    """How a call of plex-test ended, and what it wrote."""

    status: int
    wrote: str
    complaint: str


@pytest.fixture(scope="module")
def environment() -> Dict[str, str]:
    """The programs that the command runs."""
    named = {"PLEX": str(harness.find()), "PLEX_MERGE": str(harness.find_merger())}
    return {**os.environ, **named}


@pytest.fixture
def told(environment: Dict[str, str], tmp_path: pathlib.Path) -> "Caller":
    return Caller(environment, tmp_path)


class Caller:
    """Calls plex-test from a folder, in which it makes cases and programs."""

    def __init__(self, environment: Mapping[str, str], folder: pathlib.Path) -> None:
        self.environment, self.folder = dict(environment), folder

    def __call__(self, *words: Union[str, pathlib.Path], python: str = sys.executable) -> Told:
        done = subprocess.run(
            [python, TOOL, *words],
            cwd=self.folder,
            env=self.environment,
            stdin=subprocess.DEVNULL,
            stdout=subprocess.PIPE,
            stderr=subprocess.PIPE,
            timeout=SOON,
            check=False,
        )
        assert b"Traceback" not in done.stderr, done.stderr.decode()
        return Told(done.returncode, done.stdout.decode(), done.stderr.decode())

    def case(self, name: str, example: str = METER, **files: Optional[str]) -> pathlib.Path:
        """Makes a case of an example; some of its files have other texts, or are not there."""
        folder = self.folder / name
        folder.mkdir(parents=True)
        for path in (EXAMPLES / example).iterdir():
            (folder / path.name).write_bytes(path.read_bytes())
        for key, text in files.items():
            path = folder / key.replace("_", ".")
            if text is None:
                path.unlink()
            else:
                path.write_text(text)
        return folder

    def program(self, script: str) -> None:
        """Runs a shell script in the place of plex."""
        path = self.folder / "program"
        path.write_text(STUB + script)
        path.chmod(0o755)
        self.environment["PLEX"] = str(path)


def files_of(folder: pathlib.Path) -> Dict[str, bytes]:
    """All that stands below a folder."""
    paths = [path for path in folder.rglob("*") if path.is_file()]
    return {str(path.relative_to(folder)): path.read_bytes() for path in paths}


# the layout


def test_the_examples_of_the_repository_pass(told: Caller) -> None:
    """The folder of examples is one of cases as it is, and nothing is written into it."""
    before = files_of(EXAMPLES)
    got = told(EXAMPLES, "--update")
    passed = int(got.wrote.split()[0])
    assert (got.status, got.wrote) == (
        0,
        f"{passed} passed, 0 failed\n",
    ) and passed >= LEAST_EXAMPLES
    assert files_of(EXAMPLES) == before


def test_a_case_without_words_has_usual_ones(told: Caller) -> None:
    """Exchange and signals are a run; a table or a filter beside them makes another command."""
    told.case("run", words=None, status=None)
    told.case("timed", "timed_ticks", words=None)
    told.case("trace", "trace_of_faults", words=None)
    for name in ("filter", "filter.txt"):
        if (told.folder / "trace" / name).exists():
            (told.folder / "trace" / name).rename(told.folder / "trace" / "filter.txt")
    got = told("run", "timed", "trace")
    assert (got.status, got.wrote) == (0, "3 passed, 0 failed\n")


def test_words_that_no_file_tells(told: Caller) -> None:
    told.case("both", words=None, table_txt="", filter_txt="")
    got = told("both")
    assert got.status == 1
    assert got.wrote.startswith("FAIL: both: table.txt and filter.txt do not tell the command")


def test_merged_signals_come_before_the_run(told: Caller) -> None:
    """Both steps of a case are compared, and taken, the first one before the second reads it."""
    folder = told.folder / "cases"
    for name in ("time_out", "traced_time_out"):
        told.case(f"cases/{name}", f"guide/{name}")
    traced = folder / "traced_time_out"
    wanted = files_of(traced)
    (traced / "merged.txt").write_text("AFTER 0 NOSUCH\n")
    got = told("cases")
    assert got.status == 1 and "merged.txt differs" in got.wrote
    got = told("cases", "--update")
    assert got.status == 0 and "UPDATED: cases/traced_time_out: merged.txt" in got.wrote
    assert files_of(traced) == wanted


def test_cases_are_found_once_and_not_by_links_or_in_hidden_folders(told: Caller) -> None:
    told.case("cases/one")
    told.case("cases/.hidden/two")
    (told.folder / "cases" / "link").symlink_to("one")
    got = told("cases", "cases/one", "--list")
    assert (got.status, got.wrote) == (0, "cases/one\n")


# what is told


def test_passed_cases_are_told_where_that_is_asked_for(told: Caller) -> None:
    for name in ("b", "a"):
        told.case(f"cases/{name}")
    assert told("cases").wrote == "2 passed, 0 failed\n"
    assert told("-v", "cases").wrote == "PASS: cases/a\nPASS: cases/b\n2 passed, 0 failed\n"


def test_a_difference_is_a_unified_diff(told: Caller) -> None:
    """Its heads name the file, and it is what `diff -u` writes."""
    folder = told.case("case")
    right = (folder / "report.txt").read_text()
    wrong = right.replace("JOBS 4", "JOBS 5").replace("END DONE\n", "END LIMIT")
    (folder / "report.txt").write_text(wrong)
    got = told("case")
    first, old, new, *diff, last = got.wrote.splitlines()
    assert (got.status, got.complaint) == (1, "")
    assert first == "FAIL: case: report.txt differs"
    assert (old, new) == ("--- case/report.txt", "+++ case/report.txt of this run")
    assert last == "0 passed, 1 failed"
    (told.folder / "right").write_text(right)
    words = ["diff", "-u", str(folder / "report.txt"), str(told.folder / "right")]
    other = subprocess.run(words, stdout=subprocess.PIPE, timeout=SOON, check=False)
    assert diff == other.stdout.decode().splitlines()[2:]


@pytest.mark.parametrize("changed", [(1,), (3,), (20,), (10, 16), (10, 17), (10, 18), (40,)])
def test_lines_around_changes(changed: Tuple[int, ...], tmp_path: pathlib.Path) -> None:
    """A change has as many lines around it as `diff -u` shows, and is one with a near one."""
    old = [f"{number}\n" for number in range(1, 41)]
    new = [f"x{line}" if int(line) in changed else line for line in old]
    for name, lines in (("old", old), ("new", new)):
        (tmp_path / name).write_text("".join(lines))
    words = ["diff", "-u", str(tmp_path / "old"), str(tmp_path / "new")]
    other = subprocess.run(words, stdout=subprocess.PIPE, timeout=SOON, check=False)
    unified = differences.unified("".join(old).encode(), "".join(new).encode())
    assert list(unified) == other.stdout.decode().splitlines()[2:]


@pytest.mark.parametrize(
    ("old", "new"),
    [
        (b"", b"a\n"),
        (b"a\n", b""),
        (b"a", b"a\n"),
        (b"a\r\nb\n", b"a\nb\n"),
        (b"%d\n" * 40 % tuple(range(40)), b"%d\n" * 38 % tuple(range(2, 40))),
        (b"a\nb\nc\nd\ne\nf\ng\nh\ni\nj\n", b"A\nb\nc\nd\ne\nf\ng\nh\ni\nJ\n"),
        (b"x\n" * 9000 + b"y\n", b"x\n" * 3 + b"z\n" * 9000 + b"y\n"),
    ],
)
def test_diffs_are_those_of_patch(old: bytes, new: bytes, tmp_path: pathlib.Path) -> None:
    """`patch` makes the one text of the other by the diff."""
    if not harness.is_there("patch", "a diff"):
        pytest.skip("there is no patch")
    place, diff = tmp_path / "text", "\n".join(
        ["--- text", "+++ text", *differences.unified(old, new)]
    )
    place.write_bytes(old)
    diff = diff.replace("\\r", "\r")
    words = ["patch", "--binary", "-s", str(place)]
    subprocess.run(words, input=diff.encode() + b"\n", check=True, timeout=SOON)
    assert (place.read_bytes() if place.exists() else b"") == new


def test_a_long_difference_is_cut(told: Caller) -> None:
    told.case("case", report_txt="OUT 1 X F0\n" * 5000)
    got = told("case")
    assert got.wrote.count("\n") < 1100
    assert "more lines of this difference are not shown\n0 passed, 1 failed\n" in got.wrote


def test_a_status_and_an_error_that_differ_are_told(told: Caller) -> None:
    told.case("refused", REFUSED, status="0\n", error_txt="another\n")
    told.case("silent", REFUSED, error_txt=None)
    got = told("refused", "silent")
    assert got.status == 1
    assert "FAIL: refused: status 2, expected 0; error.txt differs\n" in got.wrote
    assert "-another\n+exchange.plex:8: NOTINSURVEY: " in got.wrote
    assert "FAIL: silent: it wrote to the standard error\n" in got.wrote


def test_a_report_that_ends_otherwise_differs(told: Caller) -> None:
    report = (EXAMPLES / METER / "report.txt").read_text()
    told.case("cases/other", report_txt=report[:-1] + "?")
    told.case("cases/short", report_txt=report[:-1])
    got = told("cases")
    assert got.status == 1
    assert got.wrote.count("report.txt differs") == 2
    assert got.wrote.endswith("0 passed, 2 failed\n")


def test_a_case_without_a_report_fails(told: Caller) -> None:
    folder = told.case("case", report_txt=None)
    got = told("case")
    assert got.wrote == (
        "FAIL: case: there is no report.txt; --update writes it\n0 passed, 1 failed\n"
    )
    assert (
        told("case", "--update").wrote
        == "UPDATED: case: report.txt\n1 passed, 0 failed, 1 updated\n"
    )
    assert files_of(folder) == files_of(EXAMPLES / METER)


@pytest.mark.parametrize("status", ["", "two\n", "-1\n", "256\n", "1" * 5000])
def test_a_status_that_is_no_number(told: Caller, status: str) -> None:
    told.case("case", status=status)
    got = told("case", "--update")
    assert got.status == 1
    assert got.wrote.startswith("FAIL: case: status has no number from 0 to 255\n")


def test_expected_files_that_cannot_be_read(told: Caller) -> None:
    folder = told.case("folder", report_txt=None)
    (folder / "report.txt").mkdir()
    os.mkfifo(told.case("fifo", error_txt="") / "fifo")
    os.replace(told.folder / "fifo" / "fifo", told.folder / "fifo" / "error.txt")
    (told.case("nul") / "words").write_bytes(b"run\0\n")
    got = told("folder", "fifo", "nul")
    assert got.status == 1
    assert "FAIL: folder: report.txt is not a regular file\n" in got.wrote
    assert "FAIL: fifo: error.txt is not a regular file\n" in got.wrote
    assert "FAIL: nul: plex could not be run: embedded null byte\n" in got.wrote


def test_names_are_quoted(told: Caller) -> None:
    """Neither names nor reports write control characters to a terminal."""
    names = ["a b", "new\nline", "esc\x1b[31m", "bytes\udcff", "it's", "ä"]
    for name in names:
        told.case(f"cases/{name}", report_txt="\x1b[31m\tred\n")
    got = told("cases")
    assert got.status == 1 and "\x1b" not in got.wrote
    for name in (
        "'cases/a b'",
        r"'cases/new\nline'",
        r"'cases/esc\x1b[31m'",
        r"'cases/bytes\udcff'",
    ):
        assert f"FAIL: {name}: report.txt differs\n" in got.wrote
    assert 'FAIL: "cases/it\'s": report.txt differs\n' in got.wrote
    assert "-\\x1b[31m\tred\n" in got.wrote
    listed = told("cases", "--list").wrote.splitlines()
    assert len(listed) == len(names) and r"'cases/new\nline'" in listed


# --update


def test_update_takes_what_differs_and_nothing_else(told: Caller) -> None:
    """Report, status and error are taken; what is right is not written, and nothing is left."""
    right = told.case("cases/right")
    before = {path: path.stat().st_mtime_ns for path in right.iterdir()}
    wrong = told.case("cases/wrong", REFUSED, report_txt="x\n", status="0\n", error_txt="y\n")
    other = told.case("cases/other", error_txt="a complaint\n", status="4\n")
    (wrong / "report.txt").chmod(0o640)
    got = told("cases", "--update")
    assert (got.status, got.wrote.splitlines()) == (
        0,
        [
            "UPDATED: cases/other: status, error.txt",
            "UPDATED: cases/wrong: report.txt, status, error.txt",
            "3 passed, 0 failed, 2 updated",
        ],
    )
    assert files_of(wrong) == files_of(EXAMPLES / REFUSED)
    assert files_of(other) == files_of(EXAMPLES / METER)
    assert {path: path.stat().st_mtime_ns for path in right.iterdir()} == before
    assert (wrong / "report.txt").stat().st_mode & 0o777 == 0o640
    assert told("cases").wrote == "3 passed, 0 failed\n"


@pytest.mark.parametrize("status", [7, 8, 70, 130, 132, 200])
def test_update_takes_no_run_that_failed_by_itself(told: Caller, status: int) -> None:
    """What comes of a full disk, of too little memory or of an interruption is no report."""
    folder = told.case("case")
    before = files_of(folder)
    told.program(f"echo half; exit {status}")
    got = told("case", "--update")
    assert got.status == 1 and f"status {status}, expected 0" in got.wrote
    assert files_of(folder) == before


def test_update_writes_no_file_that_the_run_reads(told: Caller) -> None:
    folder = told.case("case", report_txt="", words="run\nexchange.plex\nreport.txt\n")
    got = told("case", "--update")
    assert got.status == 1 and "report.txt is not updated, as the run reads it" in got.wrote
    assert (folder / "report.txt").read_text() == ""


# --no-faults


def test_no_faults(told: Caller) -> None:
    """A report with faults is right without the option; with it, it fails and is not taken."""
    told.case("cases/faults", FAULTS)
    told.case("cases/fine")
    assert told("cases").wrote == "2 passed, 0 failed\n"
    got = told("cases", "--no-faults")
    assert (got.status, got.wrote.splitlines()) == (
        1,
        [
            "FAIL: cases/faults: its report tells of faults",
            "  RELEASE F2 job 5 RANGE at REG:23 jobs 1 records 1",
            "  RESTART job 6 DIVIDE at REG:26 jobs 2 records 1",
            "1 passed, 1 failed",
        ],
    )
    new = told.case("cases/new", FAULTS, report_txt=None)
    assert told("cases", "--no-faults", "--update").status == 1
    assert not (new / "report.txt").exists()


def test_no_faults_in_a_load_and_a_trace(told: Caller) -> None:
    (told.folder / "load").mkdir()
    (told.folder / "load" / "words").write_text("load\n16\n")
    told.case("trace", "trace_of_faults")
    assert told("load", "trace", "--update").status == 0
    got = told("load", "trace", "--no-faults")
    assert got.status == 1 and "  RELEASES 1\n" in got.wrote and "  RESTART job 6 " in got.wrote


# --junit


def test_junit_is_read_back(told: Caller) -> None:
    """Names, messages and differences come back, with escapes for what XML cannot have."""
    told.case('cases/<a & "b">')
    told.case("cases/esc\x1b\x01\udcff\ufffe", report_txt="\x00]]><&\n")
    told.case("cases/faults", FAULTS)
    (told.folder / "out.xml").write_text("<?xml of an earlier run")
    got = told("cases", "--junit", "out.xml", "--no-faults")
    suite = ElementTree.parse(told.folder / "out.xml").getroot()[0]
    assert got.status == 1 and suite.tag == "testsuite"
    counts = {name: suite.get(name) for name in ("tests", "failures", "errors", "skipped")}
    assert counts == {"tests": "3", "failures": "2", "errors": "0", "skipped": "0"}
    assert [case.get("name") for case in suite] == [
        'cases/<a & "b">',
        r"cases/esc\x1b\x01\udcff\ufffe",
        "cases/faults",
    ]
    failures = [case.find("failure") for case in suite]
    assert failures[0] is None and failures[1] is not None and failures[2] is not None
    assert failures[1].get("message") == "report.txt differs"
    assert r"-\x00]]><&" in str(failures[1].text).splitlines()
    assert "RESTART job 6 DIVIDE at REG:26" in str(failures[2].text)
    assert not [path for path in told.folder.iterdir() if path.name.startswith(".")]


def test_junit_replaces_no_other_file(told: Caller) -> None:
    """It is refused before a case is run."""
    folder = told.case("case", report_txt="")
    before = files_of(told.folder)
    (told.folder / "words").write_text("no xml")
    for name in ("words", "case", "no/folder/out.xml", "/dev/null", "case/exchange.plex"):
        got = told("case", "--junit", name, "--update")
        assert (got.status, got.wrote) == (2, "") and got.complaint.startswith("plex-test: ")
    assert files_of(folder) == {name[5:]: text for name, text in before.items()}


# --timeout, and the end of programs

# A process that leaves the session and keeps the outputs, until there is a file.
GOES_AWAY = f"setsid sh -c 'for i in $(seq {LONG}); do [ -e ../over ] && exit; sleep 1; done' &"


def test_a_run_that_is_late_is_ended_with_all_that_it_started(told: Caller) -> None:
    """What has left its session is not waited for."""
    told.case("case")
    told.program(f"{GOES_AWAY} sleep {LONG} & echo $! >../child; sleep {LONG}")
    child = told.folder / "child"
    try:
        for limit in LIMITS:
            got = told("case", "--timeout", str(limit), "--update")
            if has_text(child):
                break
    finally:
        (told.folder / "over").touch()
    assert (got.status, got.wrote) == (
        1,
        f"FAIL: case: plex did not end within {limit} s\n0 passed, 1 failed\n",
    )
    assert has_ended(int(child.read_text()))


def has_text(path: pathlib.Path) -> bool:
    """Whether something stands in a file."""
    return path.exists() and path.read_text() != ""


def has_ended(process: int) -> bool:
    """Whether a process goes away soon."""
    end = time.monotonic() + GONE
    while time.monotonic() < end:
        try:
            state = pathlib.Path(f"/proc/{process}/stat").read_text().rpartition(")")[2].split()[0]
        except (FileNotFoundError, ProcessLookupError):
            return True
        if state in "ZX":
            return True
        time.sleep(LOOK)
    return False


def test_a_run_that_a_signal_ends(told: Caller) -> None:
    told.case("case")
    told.program("kill -SEGV $$")
    got = told("case", "--update")
    assert got.status == 1 and "FAIL: case: ended by SIGSEGV, expected 0" in got.wrote


def test_what_the_launcher_says_is_no_part_of_a_run(told: Caller) -> None:
    """In the sources a launcher tells before each run that its program is not proved."""
    told.case("fine")
    told.case("refused", REFUSED)
    plex, launcher = told.environment["PLEX"], told.folder / "launcher"
    notice = "plex: NOT PROVED HERE: tools/build plex proves it"
    launcher.write_text(f'#!/bin/sh\necho "{notice}" >&2\nexec "{plex}" "$@"\n')
    launcher.chmod(0o755)
    told.environment["PLEX"] = str(launcher)
    assert told("fine", "refused").wrote == "2 passed, 0 failed\n"


def test_many_run_at_once(told: Caller) -> None:
    """Four runs wait for one another, which only four at once can do."""
    for name in "abcd":
        told.case(f"cases/{name}")
    told.program(
        'touch started; while [ "$(ls ../*/started | wc -l)" -lt 4 ]; do sleep 0.1; done; '
        "cat report.txt"
    )
    got = told("cases", "--jobs", "4", "--timeout", str(GONE))
    assert got.wrote == "4 passed, 0 failed\n"


def wait_for_text(path: pathlib.Path) -> None:
    """Waits until something stands in a file."""
    end = time.monotonic() + SOON
    while not has_text(path):
        assert time.monotonic() < end, f"nothing stands in {path.name}"
        time.sleep(LOOK)


@pytest.mark.parametrize("number", [signal.SIGINT, signal.SIGTERM])
def test_interrupted(told: Caller, number: int) -> None:
    """It tells what it has done, and ends all that it has started."""
    told.case("cases/a")
    told.case("cases/b")
    told.program(
        f"case $PWD in */a) cat report.txt;; *) echo $$ >../../child; exec sleep {LONG};; esac"
    )
    with subprocess.Popen(
        [sys.executable, TOOL, "-v", "cases", "--junit", "out.xml"],
        cwd=told.folder,
        env=told.environment,
        stdout=subprocess.PIPE,
        stderr=subprocess.PIPE,
    ) as process, harness.ended_late(process):
        assert process.stdout and process.stdout.readline() == b"PASS: cases/a\n"
        wait_for_text(told.folder / "child")
        process.send_signal(number)
        wrote, complaint = process.communicate(timeout=SOON)
    assert (process.returncode, wrote, complaint) == (130, b"1 passed, 0 failed, 1 not run\n", b"")
    assert has_ended(int((told.folder / "child").read_text()))
    assert not (told.folder / "out.xml").exists()


def test_a_reader_who_does_not_read_on(told: Caller) -> None:
    """What was not told is no success."""
    told.case("case", report_txt="")
    words = ["sh", "-c", f"{{ {sys.executable} {TOOL} case; echo $? >status; }} | true"]
    done = subprocess.run(
        words,
        cwd=told.folder,
        env=told.environment,
        stderr=subprocess.PIPE,
        timeout=SOON,
        check=False,
    )
    assert done.stderr == b"" and (told.folder / "status").read_text() == "1\n"


def test_an_output_that_is_full(told: Caller) -> None:
    told.case("case")
    for more in ("", "--list"):
        words = ["sh", "-c", f"{sys.executable} {TOOL} {more} case >/dev/full"]
        done = subprocess.run(
            words, cwd=told.folder, env=told.environment, stderr=subprocess.PIPE, timeout=SOON
        )
        why = b"plex-test: the output could not be written: No space left on device\n"
        assert (done.returncode, done.stderr) == (1, why)


# the words


def test_cases_are_chosen_by_name(told: Caller) -> None:
    """A text is looked for below the folder that is named, not in that folder's own name."""
    for name in ("one", "two", "three"):
        told.case(f"two cases/{name}")
    assert told("two cases", "-k", "two", "--list").wrote == "'two cases/two'\n"
    assert told("two cases", "-k", "two", "-k", "thr").wrote == "2 passed, 0 failed\n"
    got = told("two cases", "-k", "four")
    assert (got.status, got.wrote) == (
        2,
        "",
    ) and "none of 3 cases has 'four' in its name" in got.complaint


WRONG: List[List[str]] = [
    [],
    ["--no-such-option", "case"],
    ["no such folder"],
    ["case/words"],
    ["--jobs", "0", "case"],
    ["--jobs", "many", "case"],
    ["--timeout", "0", "case"],
    ["--timeout", "1.5", "case"],
    ["-k"],
    ["empty"],
    ["\udcff"],
]


@pytest.mark.parametrize("words", WRONG, ids=lambda words: " ".join(words).encode("unicode_escape"))
def test_wrong_words(told: Caller, words: List[str]) -> None:
    told.case("case")
    (told.folder / "empty" / "below").mkdir(parents=True)
    got = told(*words)
    assert (got.status, got.wrote) == (2, "")
    assert got.complaint.startswith("plex-test: ") and got.complaint.count("\n") <= 2


def test_a_program_that_is_not_there(told: Caller) -> None:
    told.case("case")
    told.environment["PLEX"] = "/no/such/program"
    got = told("case")
    assert (got.status, got.complaint) == (
        2,
        "plex-test: there is no program plex at /no/such/program\n",
    )
    assert told("case", "--list").status == 0


def test_help_and_version(told: Caller) -> None:
    assert told("--version") == (0, f"plex-test {VERSION}\n", "")
    got = told("--help")
    assert got.status == 0 and got.wrote.startswith("usage: plex-test ")
