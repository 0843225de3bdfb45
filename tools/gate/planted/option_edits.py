"""Commands of the tools for users that heed an option otherwise: a fault for each option that no
other row is about.
"""
from typing import List

from gate.planted.planted import Edit

COMMANDS = "tools/python/plextools/commands"
CHART, CHECK, FORMAT, LOAD, LSP, PAGE, STEP, TEST = (
    f"{COMMANDS}/{name}.py"
    for name in ("chart", "check", "format", "load", "lsp", "page", "step", "test")
)
PROGRAMS, CHOICE = "tools/python/plextools/programs.py", "tools/python/plextools/runs/choice.py"


class Of:
    """The rows of a tool: the check that must tell them, and the file of the command."""

    def __init__(self, tool: str, check: str, file: str) -> None:
        self.tool, self.check, self.file = tool, check, file

    def row(self, name: str, told: str, old: str, new: str, only: str, file: str = "") -> Edit:
        words = ("-k", only)
        return Edit(name, self.tool, told, self.check, file or self.file, old, new, words)


SHOWN, FORMATTED = Of("plex-check", "diagnostics", CHECK), Of("plex-format", "plex_format", FORMAT)
WORDS = Of("plex-check", "completion", CHECK)
LOADED, PAGED = Of("plex-load", "load_options", LOAD), Of("plex-page", "look_at_page", PAGE)
STEPPED, DRAWN = Of("plex-step", "plex_step", STEP), Of("plex-chart", "plex_chart", CHART)
TESTED, SERVED = Of("plex-test", "plex_test", TEST), Of("plex-lsp", "completion", LSP)

OF_TEXTS: List[Edit] = [
    SHOWN.row(
        "short_is_long",
        "`--short` shows faults in their lines",
        'dest="written", action="store_const", const=form)',
        'dest="written", action="store_const", const=Form.LONG)',
        "first_fault",
    ),
    FORMATTED.row(
        "check_rewrites",
        "`--check` rewrites files",
        "        print(shown)\n",
        "        print(shown)\n        outputs.write_bytes(name, [text])\n",
        "check_and_diff",
    ),
    FORMATTED.row(
        "diff_ends_well",
        "`--diff` ends with 0",
        "return OTHERWISE if (is_check or is_diff) and text != data else FINE",
        "return OTHERWISE if is_check and text != data else FINE",
        "check_and_diff",
    ),
    FORMATTED.row(
        "faults_end_well",
        "a text with faults ends with 0",
        'print("plex-format: out of memory", file=sys.stderr)\n    return WRONG',
        'print("plex-format: out of memory", file=sys.stderr)\n    return FINE',
        "faults",
    ),
    WORDS.row(
        "version_of_check",
        "`--version` tells another version",
        'report.told = [f"plex-check {VERSION}\\n"]',
        'report.told = [f"plex-check 0.{VERSION}\\n"]',
        "test_version",
    ),
    WORDS.row(
        "help_of_check",
        "`--help` tells the words of `--no` alone",
        'return f"{__doc__}\\nOptions',
        'return f"\\nOptions',
        "test_help",
    ),
    SERVED.row(
        "version_of_tools",
        "`--version` of each tool but plex-check tells another version",
        'version=f"{self.name} {VERSION}")',
        'version=f"{self.name} 0.{VERSION}")',
        "test_version",
        PROGRAMS,
    ),
    SERVED.row(
        "help_of_tools",
        "`--help` of each tool but plex-check tells what the parser knows alone",
        'description=about.split("\\n", 2)[2],',
        'description="",',
        "test_help",
        PROGRAMS,
    ),
    SERVED.row(
        "stdio_unknown",
        "`--stdio` is called otherwise",
        '"--stdio", action="store_true"',
        '"--stdin", action="store_true"',
        "test_help",
    ),
]

OF_LOADS: List[Edit] = [
    LOADED.row(
        "waits_of_the_first",
        "`--workers` tells what jobs waited for with the first N",
        "counts, chosen = (given.workers, given.workers[-1])",
        "counts, chosen = (given.workers, given.workers[0])",
        "jobs_and_workers",
    ),
    LOADED.row(
        "one_job_more_loaded",
        "`--jobs` allows one job more",
        "jobs.jobs_of(exchange, signals, given.jobs, touches=not given.precision)",
        "jobs.jobs_of(exchange, signals, given.jobs + 1, touches=not given.precision)",
        "jobs_and_workers",
    ),
    LOADED.row(
        "skipped_count",
        "`--skip` has all jobs count",
        "load.skip(given.skip)",
        "load.skip(0)",
        "test_skip",
    ),
    LOADED.row(
        "dense_is_spread",
        "`--dense` waits for lines",
        "load.is_dense = given.dense",
        "load.is_dense = False",
        "test_dense",
    ),
    LOADED.row(
        "diff_of_one_text",
        "`--diff` takes the first text twice",
        "        later = load_of(given, after, given.after[1]",
        "        later = load_of(given, exchange, given.after[1]",
        "changes_of_statements",
    ),
    LOADED.row(
        "job_costs_nothing",
        "`--cost-job` costs nothing",
        "[given.cost_job, given.cost_send, given.cost_sync]\n    if",
        "[None, given.cost_send, given.cost_sync]\n    if",
        "costs_of_a_machine",
    ),
    LOADED.row(
        "signal_costs_nothing",
        "`--cost-send` costs nothing",
        "[given.cost_job, given.cost_send, given.cost_sync]\n    if",
        "[given.cost_job, None, given.cost_sync]\n    if",
        "cost_of_a_signal",
    ),
    LOADED.row(
        "costs_in_statements",
        "`--statement` is not heeded",
        "machine_costs.cost_of(given.statement) if given.statement else None",
        "None",
        "costs_of_a_machine",
    ),
    LOADED.row(
        "last_machine_lost",
        "`--machines` leaves out the last one",
        "machine_costs.machines_of(given.machines) if",
        "machine_costs.machines_of(given.machines)[:-1] if",
        "test_machines",
    ),
    LOADED.row(
        "json_in_a_list",
        "`--json` writes the figures in a list",
        "[tables.as_json(told)]",
        "[tables.as_json([told])]",
        "test_skip",
    ),
    PAGED.row(
        "page_of_all_workers",
        "`--workers` is not heeded",
        "play.Rules(exchange.conflicts), given.workers, keep_bars=True)",
        "play.Rules(exchange.conflicts), CHOSEN, keep_bars=True)",
        "options",
    ),
    PAGED.row(
        "page_of_all_jobs",
        "`--jobs` is not heeded",
        "jobs.jobs_of(exchange, given.signals, given.jobs",
        "jobs.jobs_of(exchange, given.signals, most_jobs",
        "options",
    ),
    PAGED.row(
        "page_over_an_input",
        "`-o` writes over an input",
        "outputs.refuse_inputs(given.page, inputs)",
        "outputs.refuse_inputs(given.page, ())",
        "options",
    ),
]

OF_RUNS: List[Edit] = [
    STEPPED.row(
        "comments_are_commands",
        "`-x` takes comments for commands",
        'if line.strip() and not line.lstrip().startswith("!"):',
        "if line.strip():",
        "test_script",
    ),
    STEPPED.row(
        "first_command_alone",
        "`-e` is taken where it stands first",
        "for source in given.scripts for line in source.commands()]",
        "for source in given.scripts[:1] for line in source.commands()]",
        "test_script",
    ),
    STEPPED.row(
        "step_without_limit",
        "`--limit` is not heeded",
        "choice.Run(given.exchange, signals, text, lines, given.limit)",
        "choice.Run(given.exchange, signals, text, lines, limits.USUAL_JOBS)",
        "test_limit",
    ),
    TESTED.row(
        "one_after_the_other",
        "`--jobs` runs one case after the other",
        "words.jobs or processors(),",
        "1,",
        "many_run_at_once",
    ),
    TESTED.row(
        "listed_as_they_are",
        "`--list` does not quote names",
        "print(quoted(case.name))",
        "print(case.name)",
        "names_are_quoted",
    ),
    TESTED.row(
        "passed_untold",
        "`--verbose` tells no passed cases",
        "shown.lines_of(outcome, is_long)",
        "shown.lines_of(outcome, False)",
        "passed_cases",
    ),
    DRAWN.row(
        "one_job_more_drawn",
        "`--jobs` draws one job more",
        "last = int(found[3]) if",
        "last = int(found[3]) + 1 if",
        "long_load",
    ),
    DRAWN.row(
        "forlopp_without_letter",
        "`--forlopp` takes no F",
        'digits = word[1:] if word[:1] in ("F", "f") else word',
        "digits = word",
        "long_load",
    ),
    DRAWN.row(
        "signal_not_heeded",
        "`--signal` chooses all jobs",
        "not self.signals or bool(self.signals & signals)",
        "not self.signals or bool(signals)",
        "by_chance",
        CHOICE,
    ),
    DRAWN.row(
        "most_one_more_drawn",
        "`--most` draws one job more",
        "if len(numbers) == self.wishes.most:",
        "if len(numbers) > self.wishes.most:",
        "long_load",
        CHOICE,
    ),
    DRAWN.row(
        "chart_without_limit",
        "`--limit` is not heeded",
        "text, lines_of(text, signals), given.limit)",
        "text, lines_of(text, signals), limits.USUAL_JOBS)",
        "long_load",
    ),
    DRAWN.row(
        "ascii_not_heeded",
        "`--ascii` draws in box characters",
        "is_ascii = form is Form.ASCII or not (",
        "is_ascii = not (",
        "all_kinds",
    ),
    DRAWN.row(
        "chart_over_an_input",
        "`-o` writes over an input",
        "outputs.refuse_inputs(given.file, inputs)",
        "outputs.refuse_inputs(given.file, ())",
        "never_written_over",
    ),
    DRAWN.row(
        "width_not_heeded",
        "`--width` is not heeded",
        "width = given.width or (",
        "width = (",
        "test_a_width",
    ),
    DRAWN.row(
        "colours_of_charts",
        "`--color` draws no colours",
        'return given.color == "always"',
        "return False",
        "test_colours",
    ),
]

EDITS: List[Edit] = [*OF_TEXTS, *OF_LOADS, *OF_RUNS]
