"""The files of the tools that are altered, each with the check that must tell it."""
from typing import List

from gate.planted.planted import Edit

CHANGE = "tools/python/plextools/text/change.py"
CHECK = "tools/python/plextools/commands/check.py"
WARNINGS = "tools/python/plextools/text/warnings.py"
WAYS = "tools/python/plextools/text/ways.py"
WHY = "tools/python/plextools/analysis/why.py"
FACTS = "tools/python/plextools/analysis/entry_facts.py"
REPORT = "tools/python/plextools/runs/report.py"
PLAY = "tools/python/plextools/runs/play.py"
JOBS = "tools/python/plextools/runs/jobs.py"
MACHINE = "tools/python/plextools/runs/machine.py"
PAGE_DATA = "tools/python/plextools/show/page_data.py"
CASE_RUNS = "tools/python/plextools/runs/case_runs.py"
TOUCHES = "tools/python/plextools/runs/touches.py"
EXACT = "tools/python/plextools/runs/exact.py"
BOTH_ORDERS = "tools/python/plextools/runs/both_orders.py"
PRECISION = "tools/python/plextools/runs/precision.py"
COSTS = "tools/python/plextools/runs/machine_costs.py"
PAIR_CHANGES = "tools/python/plextools/analysis/pair_changes.py"
LSP = "tools/python/plextools/lsp/"
KEPT = "tools/python/plextools/runs/kept.py"
SEARCHES = "tools/python/plextools/runs/searches.py"
STEPPING = "tools/python/plextools/runs/stepping.py"
STEP_TEXT = "tools/python/plextools/show/step_text.py"
TRACE_JSON = "tools/python/plextools/show/trace_json.py"
PAIR_GRAPH = "tools/python/plextools/show/pair_graph.py"
PAIR_TABLE = "tools/python/plextools/show/pair_table.py"
PAGE_HTML = "tools/python/plextools/show/page_html.py"
PAGE_JS = "tools/python/plextools/show/page.js"
STEP = "tools/python/plextools/commands/step.py"
FLOWS = "tools/python/plextools/runs/flows.py"


def check(name: str, told: str, file: str, old: str, new: str) -> Edit:
    words = ("-k", "made_change") if file == CHANGE else ("-k", "warning_row")
    return Edit(name, "plex-check", told, "compare_checks", file, old, new, words)


def why(name: str, told: str, file: str, old: str, new: str) -> Edit:
    return Edit(name, "plex-why", told, "compare_why", file, old, new, ("--cases", "40"))


def load(name: str, told: str, file: str, old: str, new: str) -> Edit:
    return Edit(name, "plex-load", told, "compare_load", file, old, new, ("--cases", "20"))


def bound(name: str, told: str, file: str, old: str, new: str) -> Edit:
    return Edit(name, "plex-load", told, "compare_bounds", file, old, new, ("--cases", "30"))


def option(name: str, tool: str, told: str, only: str, file: str, old: str, new: str) -> Edit:
    return Edit(name, tool, told, "load_options", file, old, new, ("-k", only))


def added(name: str, tool: str, told: str, file: str, old: str, new: str) -> Edit:
    path = f"tools/python/plextools/{file}"
    return Edit(name, tool, told, "compare_additions", path, old, new)


def page(name: str, told: str, file: str, old: str, new: str) -> Edit:
    return Edit(name, "plex-page", told, "look_at_page", file, old, new, ("-k", "read_back"))


OF_BOUNDS = [
    bound(
        "searches_untouched",
        "the cells that a search has looked at are not touched",
        TOUCHES,
        'self.span(f"range({first}, {end}, {stride})", False)',
        "self.settle()",
    ),
    bound(
        "additions_in_order",
        "what is added to waits for what was added to before",
        EXACT,
        "*map(self.plain.__getitem__, adds)",
        "*map(self.touched.__getitem__, adds)",
    ),
    bound(
        "levels_follow",
        "a job below the level of a signal that was sent may follow the sender",
        EXACT,
        "for level in LEVELS if level < job.level",
        "for level in LEVELS if level > job.level",
    ),
    load(
        "faults_restart_nothing",
        "a first job that may fault in no forlopp is allowed",
        PLAY,
        "return lambda first, later: first.forlopp != 0",
        "return lambda first, later: True",
    ),
    bound(
        "values_differ_always",
        "two jobs that name one record are allowed",
        PLAY,
        "return lambda first, later: first.values[a] != later.values[b]",
        "return lambda first, later: True",
    ),
    option(
        "other_order_is_the_first",
        "plex-load",
        "`--precision` tells a pair that does not commute as one that does",
        "test_precision",
        BOTH_ORDERS,
        "commutes = orders == (first.left, later.left, wanted.cells)",
        "commutes = orders is not False",
    ),
    added(
        "one_side_counts",
        "plex-why",
        "a conflict is about a counter where one entry alone adds",
        "analysis/additions.py",
        "return all(told in self.adds.get(entry, ()) for entry in (i, j))",
        "return any(told in self.adds.get(entry, ()) for entry in (i, j))",
    ),
    added(
        "adding_not_heeded",
        "plex-load",
        "the verdicts with additions are those without them",
        "analysis/additions.py",
        "return (i, j) in self.adding",
        "return False",
    ),
    option(
        "sums_of_two_operations",
        "plex-load",
        "a number of a record with more than one operation is known",
        "sums",
        "tools/python/plextools/analysis/start_sums.py",
        "other = parts[1].factor if len(parts) == 2 else None",
        "other = parts[1].factor if len(parts) >= 2 else None",
    ),
    added(
        "taken_from_is_added",
        "plex-load",
        "V = T - V is an addition",
        "text/additions.py",
        'if len(term) > 1 or operator == "-" or not names(factor, node):',
        "if len(term) > 1 or not names(factor, node):",
    ),
    option(
        "accesses_cost_nothing",
        "plex-load",
        "`--cost-sync` costs nothing",
        "costs_of_a_machine",
        COSTS,
        "len(job.sent) * costs.send + sync)",
        "len(job.sent) * costs.send)",
    ),
    option(
        "freed_is_still",
        "plex-why",
        "`--diff` tells a pair that is free now as one that never runs together",
        "changes_of_pairs",
        PAIR_CHANGES,
        "change = (STILL if is_never else FREE)",
        "change = (STILL if is_never else STILL)",
    ),
]


def lsp(name: str, told: str, file: str, old: str, new: str, test: str) -> Edit:
    check = "lsp_edits" if test in ("test_edits", "test_long_text") else "lsp"
    return Edit(name, "plex-lsp", told, check, LSP + file, old, new, ("-k", test))


def step(name: str, told: str, file: str, old: str, new: str) -> Edit:
    return Edit(name, "plex-step", told, "plex_step", file, old, new)


def terminal(name: str, told: str, old: str, new: str) -> Edit:
    return Edit(name, "plex-step", told, "step_terminal", STEP, old, new)


def trace(name: str, told: str, old: str, new: str) -> Edit:
    return Edit(name, "plex-load", told, "trace_json", TRACE_JSON, old, new)


OF_CHECK = [
    check(
        "one_too_wide_untold",
        "a constant of 2 to the power of WIDTH is not TOOWIDE",
        WAYS,
        "if value.value >= 2**width:",
        "if value.value > 2**width:",
    ),
    check(
        "record_of_size_untold",
        "the record number SIZE is not NORECORD",
        WAYS,
        "or highest.value < int(file.size.text):",
        "or highest.value <= int(file.size.text):",
    ),
    check(
        "one_turn_told",
        "a loop of one turn is NOTURN",
        WAYS,
        "if least > most:",
        "if least >= most:",
    ),
    check(
        "labels_not_heeded",
        "what is behind an ENTER is UNREACHED",
        WAYS,
        'label, ended = item if item.kind == "label" else None, None',
        'label = item if item.kind == "label" else None',
    ),
    check(
        "all_loops_left",
        "ENDLESS is not told",
        WAYS,
        "if node.point in ends or label is None",
        "if node.point not in ends or label is None",
    ),
    check(
        "kept_numbers_lost",
        "a record is LOST though a variable has its number",
        WAYS,
        'is_value = node.kind in ("set", "set_field", "SEND", "RETURN")',
        'is_value = node.kind in ("SEND", "RETURN")',
    ),
    check(
        "relations_of_or_untold",
        "a constant relation behind AND or OR is told at the first one",
        WAYS,
        "start = starts[number]",
        "start = starts[0]",
    ),
    check(
        "equal_sizes_refused",
        "`--change` refuses a FORLOPP FILE of the same size",
        CHANGE,
        "elif known(new.size) < known(file.size):",
        "elif known(new.size) <= known(file.size):",
    ),
    check(
        "other_count_taken",
        "`--change` takes an entry with another count of DATA",
        CHANGE,
        "elif (signal.level, signal.count) != (other.level, other.count):",
        "elif signal.level != other.level:",
    ),
    check(
        "moved_upward_only",
        "`--change` tells MOVED of blocks that move down alone",
        CHANGE,
        "if old and new and old.number != new.number:",
        "if old and new and old.number > new.number:",
    ),
    check(
        "dropped_block_untold",
        "`--change` does not tell of a block that is dropped",
        CHANGE,
        'if any(one.kind in ("variable", "field") for one in block.names.values()):',
        "if not block.names:",
    ),
    check(
        "narrowed_untold",
        "`--change` does not tell of a WIDTH that is one smaller",
        CHANGE,
        "if width < known(one.width):",
        "if width < known(one.width) - 1:",
    ),
    check(
        "kept_uncounted",
        "`--change` counts what is dropped as kept",
        CHANGE,
        'kept = {"variable": 0, "field": 0}',
        'kept = {"variable": 1, "field": 0}',
    ),
    check(
        "stays_untold",
        "`--change` does not tell of an INIT that has become 0",
        CHANGE,
        "if was != now and was < 2 ** known(new.width):",
        "if now and was != now and was < 2 ** known(new.width):",
    ),
    check(
        "answer_untold",
        "an answer that nobody returns is not told",
        WARNINGS,
        'if (\n                signal.kind == "COMBINED"',
        'if (\n                signal.kind == "NONE"',
    ),
    check(
        "most_one_more",
        "`--most` tells one more warning",
        WARNINGS,
        "if count <= self.most:",
        "if count <= self.most + 1:",
    ),
    check(
        "runs_on_untold",
        "RUNSON is not told",
        WARNINGS,
        "if self.entry and not frame.ended:",
        "if self.entry and frame.ended:",
    ),
]

OF_WHY = [
    why(
        "cure_of_another_level",
        "the cure names the level of the first entry",
        WHY,
        'return f"send {sent} at level {self.later.level} or lower"',
        'return f"send {sent} at level {self.first.level} or lower"',
    ),
    why(
        "range_is_divide_in_why",
        "RANGE is told as DIVIDE",
        FACTS,
        'yield "RANGE"',
        'yield "DIVIDE"',
    ),
    why(
        "line_of_seize",
        "the lines of SEIZE and FREE are one larger",
        WHY,
        "return Told(point, node.line, self.text.head(node), does)",
        'line = node.line + does.startswith(("seizes", "frees"))\n'
        "        return Told(point, line, self.text.head(node), does)",
    ),
    why(
        "stored_is_computed",
        "stored and computed change places",
        FACTS,
        'return [] if part.kind == "block" else [Origin(node.point, "stored", number)]',
        'return [] if part.kind == "block" else [Origin(node.point, "computed", number)]',
    ),
    why(
        "two_tests",
        "a pair has two tests at most",
        WHY,
        "    reasons = exchange.conflicts.reasons(i, j) if reasons is None else reasons\n",
        "    reasons = exchange.conflicts.reasons(i, j) if reasons is None else reasons\n"
        "    reasons = [one for one in reasons if one.is_conflict] or list(reasons)[:2]\n",
    ),
    why(
        "reads_of_both",
        "reads are told where the other job reads alone",
        WHY,
        '    lines = [f"READ {access}"] * reads + [f"WRITE {access}"]\n',
        '    lines = [f"READ {access}", f"WRITE {access}"]\n',
    ),
]

OF_LOAD = [
    load(
        "pays_in_one_pair",
        "a change pays in one pair alone",
        REPORT,
        "keys_of(i, j, reason)[1],",
        "keys_of(i, j, reason)[0],",
    ),
    load(
        "chain_without_forlopps",
        "the longest chain leaves forlopps out",
        JOBS,
        "number for number in (job.sender, last.get(job.forlopp)) if number in best",
        "number for number in (job.sender, None) if number in best",
    ),
    load(
        "lengths_of_a_trace",
        "the lengths of a trace are doubled",
        JOBS,
        "job.held, job.length = tuple(sorted(held)), self.lengths[job.entry]",
        "job.held, job.length = tuple(sorted(held)), 2 * self.lengths[job.entry]",
    ),
    load(
        "jobs_of_a_trace_hold_nothing",
        "the jobs of a trace hold nothing",
        JOBS,
        "job.held, job.length = tuple(sorted(held)), self.lengths[job.entry]",
        "job.held, job.length = (), self.lengths[job.entry]",
    ),
    load(
        "window_one_wider",
        "the window has room for one more",
        PLAY,
        "        if begun - self.ended >= self.workers:\n            return FULL\n",
        "        if begun - self.ended > self.workers:\n            return FULL\n",
    ),
    load(
        "forlopps_follow",
        "jobs of one forlopp may follow each other",
        PLAY,
        "if first.forlopp and first.forlopp == later.forlopp:",
        "if first.forlopp and first.forlopp != later.forlopp and False:",
    ),
]

OF_PAGE = [
    page(
        "other_sender",
        "a job is told to be sent by the one before",
        PAGE_DATA,
        '"sender": [None if job.sender is None else place.get(job.sender) for job in jobs],',
        '"sender": [None if job.sender is None else place.get(job.sender - 1) for job in jobs],',
    ),
    page(
        "other_reach",
        "the lines that an entry reaches are those without the first",
        PAGE_DATA,
        '"reach": ranges(self.lines_of(self.exchange.made[entry.number].reached)),',
        '"reach": ranges(self.lines_of(self.exchange.made[entry.number].reached)[1:]),',
    ),
    page(
        "letters_of_tests",
        "a wait for a test has the letter of its kind",
        PAGE_DATA,
        'return reason.reason.kind[0] if reason.reason.is_conflict else "?"',
        "return reason.reason.kind[0]",
    ),
    page(
        "entries_cut",
        "the last entry is missing",
        PAGE_DATA,
        "entries = [parts.entry(entry) for entry in exchange.analysis.entries]",
        "entries = [parts.entry(entry) for entry in exchange.analysis.entries[:-1]]",
    ),
    page(
        "waits_one_later",
        "a wait begins one statement later",
        PAGE_DATA,
        '"from": [wait.begin for wait in waits],',
        '"from": [wait.begin + 1 for wait in waits],',
    ),
]

OF_PAGE += [
    page(
        "narrow_bars",
        "bars are one point narrower",
        PAGE_HTML,
        "max(2.0, scale * (end - begin) - 1)",
        "max(2.0, scale * (end - begin) - 2)",
    ),
    page(
        "answers_untold",
        "the data of a job has no answers",
        FLOWS,
        "isinstance(step, Message)]",
        "isinstance(step, Message) and step.kind.value != 'answer']",
    ),
    page(
        "page_other_receiver",
        "a buffered signal is told to start the job before",
        PAGE_DATA,
        "[[place.get(number, 0) for number in job.sent] for job in jobs]",
        "[[place.get(number - 1, 0) for number in job.sent] for job in jobs]",
    ),
    Edit(
        "page_answers_as_calls",
        "plex-page",
        "the call flow draws answers as other signals inside a job",
        "look_at_page",
        PAGE_JS,
        'told === "answer" ? "answer" : ',
        "",
        ("-k", "call_flow"),
    ),
    Edit(
        "columns_cut",
        "plex-page",
        "names of columns are cut",
        "look_at_page",
        "tools/python/plextools/show/page.css",
        "max-height: 16rem;",
        "max-height: 9rem;",
        ("-k", "columns"),
    ),
    Edit(
        "calls_undrawn",
        "plex-page",
        "the call flow draws no direct and no combined signal",
        "look_at_page",
        PAGE_JS,
        "rows.push(signalRow(place, flows, number, receivers));",
        'if (flows.words[flows.signals[number][0]] === "buffered") '
        "rows.push(signalRow(place, flows, number, receivers));",
        ("-k", "call_flow"),
    ),
    page(
        "reached_by_another",
        "lines are told to be reached by the next entry",
        PAGE_HTML,
        "found.setdefault(line, []).append(number)",
        "found.setdefault(line, []).append(number + 1)",
    ),
]

OF_LSP = [
    lsp(
        "diagnostic_one_line_lower",
        "what is told stands one line lower",
        "documents.py",
        'return {"line": line, "character": character}',
        'return {"line": line + 1, "character": character}',
        "test_quick_fix",
    ),
    lsp(
        "bytes_for_units",
        "characters are counted in bytes",
        "documents.py",
        "len(before) if before.isascii() else units(letters_of(before))",
        "len(before)",
        "test_positions",
    ),
    lsp(
        "place_not_renamed",
        "a rename leaves out the last place",
        "names.py",
        "for document, noted in all_uses(workspace, meant):",
        "for document, noted in list(all_uses(workspace, meant))[:-1]:",
        "test_rename",
    ),
    lsp(
        "segment_kept",
        "for a block that was changed the names of another one are taken",
        "index.py",
        "known.segments.get(clean) or SegmentReader",
        'known.segments.get(next(iter(known.segments), "")) or SegmentReader',
        "test_edits",
    ),
    lsp(
        "near_edit_elsewhere",
        "a fault near an edit of a long text is told where it stands in the part that is read",
        "quick.py",
        "inside = [rewriting.finding(one) for one in found]",
        "inside = list(found)",
        "test_long_text",
    ),
    lsp(
        "other_entry_counted",
        "an entry that is kept apart is counted once more",
        "verdicts.py",
        'told.append(f"never together with {len(self.never)}")',
        'told.append(f"never together with {len(self.never) + 1}")',
        "test_code_lens",
    ),
]

OF_STEP = [
    terminal("tab_stays_a_tab", "Tab completes nothing", '"tab: complete"', '"tab: tab-insert"'),
    terminal(
        "interrupt_at_the_prompt_ends",
        "Ctrl-C at the prompt ends the session",
        "            print()\n            continue",
        "            return",
    ),
    terminal(
        "interrupt_moves",
        "a command that Ctrl-C stops leaves the run where it was stopped",
        "            session.stepper.go(session.stepper.place)",
        "            pass",
    ),
    terminal(
        "interrupts_are_not_kept",
        "Ctrl-C is heeded between commands too, where it ends the session",
        "if self.is_heeded and self.is_kept:",
        "if self.is_kept:",
    ),
    terminal(
        "interrupt_beside_an_alarm",
        "Ctrl-C ends the session where another signal comes with it",
        "            if not is_interrupt(raised):\n",
        "            if not isinstance(raised, KeyboardInterrupt):\n",
    ),
    Edit(
        "goto_of_few_jobs",
        "plex-step",
        "goto takes no number above 10,000",
        "plex_step",
        "tools/python/plextools/commands/step_session.py",
        "self.times(words, MOST_JOBS)",
        "self.times(words)",
        ("-k", "wrong_command"),
    ),
    step(
        "back_past_the_last_place",
        "a search backward takes the place where it begins",
        SEARCHES,
        "        if place >= self.origin:\n            raise Halted\n        if self.is_wished",
        "        if place > self.origin:\n            raise Halted\n        if self.is_wished",
    ),
    step(
        "release_not_watched",
        "a watchpoint is not met where a release stores",
        SEARCHES,
        "        self.writes += writes\n",
        "        pass\n",
    ),
    step(
        "same_value_not_stored",
        "a watchpoint is not met where the value stays the same",
        SEARCHES,
        "if cell in one.cells and (old != new or not one.of_changes)",
        "if cell in one.cells and old != new",
    ),
    step(
        "state_one_later",
        "a run goes on from a state behind the place to which it goes",
        KEPT,
        "for number in self.near if number <= ended]",
        "for number in self.near if number <= ended + 1]",
    ),
    step(
        "any_number_of_states",
        "states are kept without a bound",
        KEPT,
        "while self.is_full():",
        "while False:",
    ),
    step(
        "jobs_not_compared",
        "the jobs of a run are not compared with those of plex",
        STEPPING,
        "if digest.digest() != self.machine.digest.digest():",
        "if not digest.digest():",
    ),
    step(
        "escapes_not_quoted",
        "what would steer a terminal is written as it stands",
        STEP_TEXT,
        "told = printed(text)",
        "told = text",
    ),
]

OF_TRACE = [
    trace(
        "flow_behind_its_job",
        "`--trace-json` begins the flow of a signal behind the job that sends it",
        'begins = event("s", "sent", "sent", bar.end - 1, thread)',
        'begins = event("s", "sent", "sent", bar.end, thread)',
    ),
    trace(
        "job_of_another_worker",
        "`--trace-json` gives a job to the worker before",
        "job, thread = bar.job, bar.row + 1",
        "job, thread = bar.job, bar.row",
    ),
]

OF_OTHERS = [
    Edit(
        "other_report_taken",
        "plex-test",
        "a report that differs in its last byte passes",
        "plex_test",
        CASE_RUNS,
        "elif report != answer.wrote:",
        "elif report[:-1] != answer.wrote[:-1]:",
    ),
    Edit(
        "status_not_looked_at",
        "plex-test",
        "another status passes",
        "plex_test",
        CASE_RUNS,
        "if answer.status != status:",
        "if answer.status > status:",
    ),
    Edit(
        "arrows_one_way",
        "pairs_dot",
        "a verdict of both orders is drawn as two arrows",
        "pictures",
        PAIR_GRAPH,
        "if not both or first < later:",
        "if True:",
    ),
    Edit(
        "bundles_one_way",
        "pairs_dot",
        "`--blocks` draws the same pairs of both orders as two arrows",
        "pictures",
        PAIR_GRAPH,
        "both = first != later and found.get(bundle.turned) == told",
        "both = False",
    ),
    Edit(
        "reasons_counted_once",
        "pairs_dot",
        "`--blocks` tells of one test of each pair alone",
        "pictures",
        PAIR_GRAPH,
        "for reason in verdict.reasons})",
        "for reason in verdict.reasons[:1]})",
    ),
    Edit(
        "other_letter",
        "pairs_table",
        "the letter of a test is another",
        "pictures",
        PAIR_TABLE,
        '"?"',
        '"!"',
    ),
]

EDITS: List[Edit] = [
    *OF_CHECK,
    *OF_WHY,
    *OF_LOAD,
    *OF_BOUNDS,
    *OF_PAGE,
    *OF_LSP,
    *OF_STEP,
    *OF_TRACE,
    *OF_OTHERS,
]
