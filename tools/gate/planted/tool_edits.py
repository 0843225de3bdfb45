"""Files of the tools for users that are altered: one for each option that writes or chooses
something.
"""
from typing import List

from gate.planted.planted import Edit

SHOW = "tools/python/plextools/show"
RUNS = "tools/python/plextools/runs"
COMMANDS = "tools/python/plextools/commands"
RECORDS, LONG_FORM = f"{SHOW}/records.py", f"{SHOW}/long_form.py"
TEXT = "tools/python/plextools/text"
EXPLANATIONS = f"{TEXT}/explanations.py"
LINKS = "tools/python/plextools/analysis/links.py"
CHECKS, WAYS = "tools/python/plextools/lsp/checks.py", f"{TEXT}/ways.py"
CHECK, WHY, TEST = (f"{COMMANDS}/{name}.py" for name in ("check", "why", "test"))
CHART, CHART_SVG, CHART_WORDS = (
    f"{SHOW}/{name}.py" for name in ("chart", "chart_svg", "chart_words")
)
CHOICE, CASE_RUNS = f"{RUNS}/choice.py", f"{RUNS}/case_runs.py"
PAIR_JSON, OUTCOMES, DIFFERENCES = (
    f"{SHOW}/{name}.py" for name in ("pair_json", "outcomes", "differences")
)


OF_LINKS = ("-k", "test_links", "--cases", "20")


def linked(name: str, told: str, old: str, new: str) -> Edit:
    return Edit(name, "plex-why", told, "compare_why", LINKS, old, new, OF_LINKS)


def shown(name: str, told: str, file: str, old: str, new: str, only: str = "") -> Edit:
    words = ("-k", only) if only else ()
    return Edit(name, "plex-check", told, "diagnostics", file, old, new, words)


def slipped(name: str, told: str, file: str, old: str, new: str) -> Edit:
    return Edit(name, "plex-check", told, "slips", f"{TEXT}/{file}", old, new)


def explained(name: str, told: str, old: str, new: str) -> Edit:
    return Edit(name, "plex-check", told, "explanations", EXPLANATIONS, old, new)


def row_of(name: str, told: str, old: str, new: str) -> Edit:
    words = ("-k", "test_row or warning_row")
    return Edit(name, "plex-check", told, "compare_checks", CHECK, old, new, words)


def drawn(name: str, told: str, file: str, old: str, new: str, *only: str) -> Edit:
    words = ("-k", " or ".join(only)) if only else ("-k", "by_chance", "--cases", "8")
    return Edit(name, "plex-chart", told, "plex_chart", file, old, new, words)


def tested(name: str, told: str, file: str, old: str, new: str, only: str) -> Edit:
    return Edit(name, "plex-test", told, "plex_test", file, old, new, ("-k", only))


OF_CHECK = [
    slipped(
        "ends_at_the_end",
        "the end of a statement is put in where the fault is told",
        "closers.py",
        "    for number, frame in enumerate(frames, 1):\n",
        "    for number, frame in enumerate(frames[:0], 1):\n",
    ),
    slipped(
        "label_stays",
        "a label in a statement to which nothing goes is not left out",
        "hints.py",
        " or no_label(reader, start)",
        "",
    ),
    slipped(
        "letters_apart",
        "each word in small letters is told by itself",
        "advice.py",
        'f"write {meant}", edits, SMALL_LETTERS)',
        'f"write {meant}", edits)',
    ),
    slipped(
        "warnings_of_slips",
        "warnings that come from a misspelled name are told",
        "retelling.py",
        "if one not in may_follow or key_of(one) in left]",
        "if one not in may_follow or key_of(one)]",
    ),
    shown(
        "json_column",
        "`--json` gives each column one too large",
        RECORDS,
        '"column": self.columns[file].column(place)}',
        '"column": self.columns[file].column(place) + 1}',
        "first_fault",
    ),
    shown(
        "json_without_cures",
        "`--json` gives the cure in words alone",
        RECORDS,
        "edits = [self.edit(finding.file, edit) for edit in finding.advice.edits]",
        "edits = [self.edit(finding.file, edit) for edit in ()]",
        "cures",
    ),
    shown(
        "sarif_end",
        "`--sarif` ends each region where it begins",
        RECORDS,
        '"endColumn": end["column"],',
        '"endColumn": start["column"],',
        "sarif",
    ),
    shown(
        "sarif_levels",
        "`--sarif` tells warnings as errors",
        RECORDS,
        'level = "note" if finding.severity is Severity.NOTE else finding.severity.value',
        'level = "note" if finding.severity is Severity.NOTE else "error"',
        "sarif",
    ),
    shown(
        "sarif_without_places",
        "`--sarif` leaves out the other places of a fault",
        RECORDS,
        "related += [self.at(one.file, one.span, one.sentence) for one in finding.advice.notes]",
        "related += [self.at(one.file, one.span, one.sentence) for one in ()]",
        "sarif",
    ),
    shown(
        "sarif_without_cures",
        "`--sarif` leaves out the cures",
        RECORDS,
        "        if finding.advice.edits:\n",
        "        if finding.advice.edits and not used:\n",
        "sarif",
    ),
    shown(
        "long_form_cut",
        "`--long` shows one place of a fault with several",
        LONG_FORM,
        "for note in finding.advice.notes:",
        "for note in finding.advice.notes[:1]:",
        "long_form",
    ),
    shown(
        "long_form_wide",
        "`--long` takes three columns too many",
        LONG_FORM,
        "return self.width - self.gutter - 3",
        "return self.width - self.gutter",
    ),
    shown(
        "colours_of_notes",
        "`--color` colours no warning",
        LONG_FORM,
        "Severity.WARNING: YELLOW,",
        "Severity.WARNING: BOLD,",
        "colours",
    ),
    explained(
        "explained_wrong_as_right",
        "`--explain` gives the two examples in each other's place",
        "zip(self.heads, (self.wrong, self.right))",
        "zip(self.heads, (self.right, self.wrong))",
    ),
    explained(
        "explained_without_frame",
        "`--explain` leaves out the text that both examples share",
        'return texts.pop() if len(texts) == 1 else ""',
        "return texts.pop()",
    ),
    row_of(
        "werror_ends_well",
        "`--werror` ends with 0",
        "return ODD if Severity.WARNING in worst and self.words.werror else FINE",
        "return ODD if Severity.WARNING in worst and not self.words else FINE",
    ),
    row_of(
        "werror_of_all",
        "warnings end with 1 without `--werror`",
        "return ODD if Severity.WARNING in worst and self.words.werror else FINE",
        "return ODD if Severity.WARNING in worst else FINE",
    ),
    row_of(
        "no_not_heeded",
        "`--no` leaves nothing out",
        "[one for one in findings if one.word not in self.switched_off]",
        "[one for one in findings if one.word not in ()]",
    ),
]

OF_WHY = [
    linked(
        "link_of_unknown_record",
        "a number that is read from a record that is not known itself is a link",
        "if is_plain and not made.facts.has_any(node.point, made.slot(node, part.pointer)):",
        "if is_plain:",
    ),
    linked(
        "link_beside_another_number",
        "a record is one of a link where its number may come from elsewhere too",
        "links if len(links) == len(found) else None",
        "links",
    ),
    linked(
        "link_in_own_record",
        "a number that is read from a record of a forlopp is a link",
        "is_plain = not text.block_of(node).file_of[part.name].forlopp",
        "is_plain = True",
    ),
    linked(
        "link_behind_links",
        "behind links stand the conflicts that are about links",
        "and not self.of(i, j, reason)",
        "",
    ),
    Edit(
        "link_not_in_json",
        "plex-why",
        "`--json` tells no links",
        "compare_why",
        PAIR_JSON,
        '"links": of_links(pair.exchange.links.of(pair.i, pair.j, reason))',
        '"links": []',
        OF_LINKS,
    ),
    Edit(
        "never_is_if",
        "plex-why",
        "`--json` tells NEVER as IF",
        "compare_why",
        PAIR_JSON,
        'return "NEVER" if reasons[0].is_conflict else "IF"',
        'return "IF"',
        ("-k", "test_case"),
    ),
    Edit(
        "json_line_of_why",
        "plex-why",
        "`--json` gives each line one too large",
        "compare_why",
        PAIR_JSON,
        '"line": told.line,',
        '"line": told.line + 1,',
        ("-k", "test_case"),
    ),
    Edit(
        "all_not_heeded",
        "plex-why",
        "`--all` cuts long lists",
        "tool_examples",
        WHY,
        "shown = EVERYTHING if given.all else why.SHOWN",
        "shown = why.SHOWN",
        ("-k", "all_statements"),
    ),
    Edit(
        "names_not_heeded",
        "plex-why",
        "the names of an entry tell the first one of the signal",
        "tool_examples",
        WHY,
        "if [entry.signal, entry.block] == words:",
        "if entry.signal == words[0]:",
        ("-k", "names_of_entries"),
    ),
]

OF_CHART = [
    drawn(
        "chart_other_receiver",
        "a signal is told to start the job behind its own",
        CHART,
        'return f"to job {job.place}{forlopp}"',
        'return f"to job {job.place + 1}{forlopp}"',
    ),
    drawn(
        "chart_lost_untold",
        "lines that are lost are not drawn",
        CHART,
        "for one in seen.lost:\n            self.rows",
        "for one in seen.lost[1:]:\n            self.rows",
    ),
    drawn(
        "chart_values_swapped",
        "`--values` tells the old value behind the new one",
        CHART,
        "{stored.old} -> {stored.new}",
        "{stored.new} -> {stored.old}",
    ),
    drawn(
        "chart_answers_as_calls",
        "answers are drawn as signals inside a job",
        CHART,
        "style = Style.ANSWER if message.kind is Kind.ANSWER else style",
        "style = Style.CALL if message.kind is Kind.ANSWER else style",
    ),
    Edit(
        "chart_gap_of_one",
        "plex-chart",
        "a job that is left out alone is not told",
        "tool_examples",
        CHART,
        "        if count > 0:\n",
        "        if count > 1:\n",
        ("-k", "chart.words"),
    ),
    drawn(
        "chart_around_one_less",
        "`--context` has one job fewer on each side",
        CHOICE,
        "most = min(self.wishes.context, self.wishes.most // 2)",
        "most = max(0, min(self.wishes.context, self.wishes.most // 2) - 1)",
        "jobs_around",
    ),
    drawn(
        "chart_block_of_entry",
        "`--block` chooses by the first block alone",
        CHOICE,
        "seen.blocks | {entry.block}, seen.signals",
        "{entry.block}, seen.signals",
    ),
    drawn(
        "chart_other_fault",
        "`--around` takes the last job with the fault",
        CHOICE,
        "found, faults = found or one, faults + 1",
        "found, faults = one, faults + 1",
        "first_fault",
    ),
    drawn(
        "chart_lines_lost",
        "`--lines` leaves the lines of the signal file out",
        CHART,
        'return f" S:{number}" if self.look.lines else ""',
        'return ""',
        "chart.words",
        "in_text",
        "picture",
        "by_chance",
    ),
    drawn(
        "chart_rails",
        "`--svg` draws rails over one another",
        CHART_SVG,
        "free = next((track for track in range(RAILS) if track not in tracks), None)",
        "free = next((track for track in range(RAILS)), None)",
        "rails",
    ),
    drawn(
        "chart_for_mermaid",
        "`--mermaid` writes names as they are",
        CHART_WORDS,
        'f"#{ord(letter)};" if letter in STEERS else letter',
        'f"#{ord(letter)};" if letter in "#" else letter',
        "strange",
    ),
    drawn(
        "chart_for_msc",
        "`--msc` draws an answer as a signal",
        CHART_WORDS,
        'Style.ANSWER: ">>", Style.LOST: "-x"}\nMSC_COLOURS',
        'Style.ANSWER: "->", Style.LOST: "-x"}\nMSC_COLOURS',
        "arrows_of_msc",
    ),
]

OF_TEST = [
    tested(
        "no_faults_not_heeded",
        "`--no-faults` takes a report with a fault",
        CASE_RUNS,
        "if self.settings.forbids_faults:",
        "if self.settings.forbids_faults and step.is_first:",
        "no_faults",
    ),
    tested(
        "update_of_any_run",
        "`--update` takes a run that the system has ended",
        CASE_RUNS,
        "is_own = answer.status in ((0,) if step.is_first else OWN_STATUSES)",
        "is_own = True",
        "update",
    ),
    tested(
        "junit_counts",
        "`--junit` tells no failures",
        OUTCOMES,
        '"failures": str(failed),',
        '"failures": "0",',
        "junit",
    ),
    tested(
        "chosen_by_all",
        "`-k` chooses cases with all of the parts",
        TEST,
        "if parts is None or any(part in case.below for part in parts)",
        "if parts is None or all(part in case.below for part in parts)",
        "chosen",
    ),
    tested(
        "diff_without_context",
        "a difference has two lines around each change",
        DIFFERENCES,
        "AROUND = 3  #",
        "AROUND = 2  #",
        "lines_around",
    ),
    tested(
        "late_runs_pass",
        "`--timeout` ends a run and what it has started is left",
        CASE_RUNS,
        "            self.running.discard(process)\n            kill(process)\n",
        "            self.running.discard(process)\n            process.terminate()\n",
        "late",
    ),
]

OF_NOTES = [
    drawn(
        "chart_values_narrow",
        "`--values` is cut at the next lane",
        f"{SHOW}/chart_text.py",
        "        if len(text) > room:\n",
        "        if len(text) > room and not row:\n",
        "idle_lanes",
    ),
]
OF_OUTPUTS = [
    Edit(
        "unwritten_ends_well",
        "plex-chart",
        "the status is 0 where the output cannot be written",
        "outputs",
        "tools/python/plextools/programs.py",
        "        status = unwritten\n",
        "        status = 0\n",
        ("-k", "test_output or test_pipe"),
    ),
    Edit(
        "help_unwritten",
        "plex-load",
        "help that cannot be written ends well",
        "outputs",
        "tools/python/plextools/programs.py",
        "        sys.stdout.flush()\n        raise\n",
        "        raise\n",
        ("-k", "test_output or test_pipe"),
    ),
    Edit(
        "closed_output_taken",
        "plex-page",
        "a page for a closed output is lost without a word",
        "outputs",
        "tools/python/plextools/streams.py",
        'FULL = "/dev/full"',
        "FULL = os.devnull",
        ("-k", "as_a_file"),
    ),
]
OF_LSP = [
    Edit(
        "whole_text_at_once",
        "plex-lsp",
        "a long text is looked at as a whole behind each edit",
        "lsp_speed",
        "tools/python/plextools/lsp/quick.py",
        "    if window is None:\n",
        "    if window is None or window:\n",
    ),
    Edit(
        "far_edits_wait",
        "plex-lsp",
        "an edit far from the one before is told when the whole text has been looked at",
        "lsp_speed",
        CHECKS,
        "(self.whole.get(document.uri), last)",
        "(self.whole.get(document.uri),)",
        ("-k", "whole_given_up"),
    ),
    Edit(
        "whole_to_its_end",
        "plex-lsp",
        "the look at the whole text is not given up at an edit",
        "lsp_speed",
        CHECKS,
        "            if not self.workspace.is_current(document):\n                raise Stale\n",
        "            pass\n",
        ("-k", "whole_given_up"),
    ),
    Edit(
        "all_blocks_again",
        "plex-lsp",
        "the ways through all blocks are looked at behind each edit",
        "lsp_speed",
        WAYS,
        "        if found is None:\n",
        "        if found is None or block:\n",
        ("-k", "other_blocks_kept"),
    ),
    Edit(
        "lines_of_before",
        "plex-lsp",
        "what is odd in a block names the lines at which it stood before",
        "lsp_edits",
        WAYS,
        "(known.above == above or not known.told)",
        "known.above >= 0",
        ("-k", "known_ways"),
    ),
    Edit(
        "kinds_of_before",
        "plex-lsp",
        "what is odd in a block is told by the kinds of signals of before",
        "lsp_edits",
        WAYS,
        "if one in self.of and kinds == self.kinds}",
        "if one in self.of}",
        ("-k", "known_ways"),
    ),
]
OF_VSIX = [
    Edit(
        "vsix_without_file",
        "vsix",
        "a file of the extension is not packed",
        "vsix",
        "tools/maintain/vsix",
        '    "connection.js",\n',
        "",
    ),
]
EDITS: List[Edit] = [
    *OF_CHECK,
    *OF_WHY,
    *OF_CHART,
    *OF_TEST,
    *OF_NOTES,
    *OF_OUTPUTS,
    *OF_LSP,
    *OF_VSIX,
]
