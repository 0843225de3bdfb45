"""The tools and the programs of the sources have one version, and one table."""
from gate import harness
from plextools import VERSION, programs


def test_version() -> None:
    """The tools say the version that the program says."""
    assert VERSION == harness.version()


def test_each_program_is_of_the_sources() -> None:
    """Each program of the table has a crate with a main function, and a launcher."""
    for program in programs.PROGRAMS:
        assert (harness.ROOT / "crates" / program.crate / "src" / "main.rt").is_file(), program.name
        assert program.launcher.is_file(), program.name
