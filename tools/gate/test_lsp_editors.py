"""Editors with the language server: Emacs with eglot, and Neovim, both without a screen.

Each opens a wrong text by its file of `editors/`, and is told of the faults; then a definition
is looked up.
"""
from __future__ import annotations

import os
import pathlib
import subprocess

import pytest

from gate.checking import ROOT, check, need_command
from gate.lsp_client import PYTHON, SERVER
from gate.lsp_example import EXCHANGE, need_module
from plextools.text.tokens import KEYWORDS

EDITORS, LONGEST = ROOT / "editors", 300
WRONG = EXCHANGE.replace("CALLS + 1", "CALLZ + 1").replace("GOTO IDLE", "GOTO IDL")
WANTED = {
    19: "CALLZ is not declared in block DESK; CALLS is",
    20: "no label IDL stands in block DESK",
}
DECLARED = "8"  # the line of CALLS
EMACS = """
(progn
  (package-initialize)
  (require 'eglot)
  (load "{editors}/emacs/plex-mode.el")
  (setq plex-lsp-command '("{python}" "-B" "{server}") eglot-sync-connect 200
        eglot-connect-timeout 200 jrpc-default-request-timeout 200)
  (find-file "wrong.plex")
  (unless (eq major-mode 'plex-mode) (error "the mode is %s" major-mode))
  (apply #'eglot (eglot--guess-contact))
  (let ((end (+ (float-time) 200)))
    (while (and (not (flymake-diagnostics)) (< (float-time) end))
      (accept-process-output nil 0.1)))
  (let ((told (mapconcat (lambda (one)
                           (format "%d:%s" (line-number-at-pos (flymake-diagnostic-beg one))
                                   (flymake-diagnostic-text one)))
                         (flymake-diagnostics) "\\n")))
    (goto-char (point-min))
    (search-forward "CALLS =")
    (goto-char (match-beginning 0))
    (let* ((found (car (xref-backend-definitions 'eglot (xref-backend-identifier-at-point 'eglot))))
           (at (xref-location-line (xref-item-location found))))
      (write-region (format "%s\\ndeclared %d\\n" told at) nil "told")))
  (eglot-shutdown (eglot-current-server)))
"""
NEOVIM = """
vim.g.plex_lsp_command = {{ '{python}', '-B', '{server}' }}
dofile('{editors}/neovim/plex.lua')
vim.cmd('edit wrong.plex')
if vim.bo.filetype ~= 'plex' then vim.bo.filetype = 'plex' end
vim.wait(200000, function() return #vim.diagnostic.get(0) > 0 end, 50)
local told = {{}}
for _, one in ipairs(vim.diagnostic.get(0)) do
  table.insert(told, (one.lnum + 1) .. ':' .. one.message)
end
vim.fn.cursor(19, 3)
local found = vim.lsp.buf_request_sync(
  0, 'textDocument/definition', vim.lsp.util.make_position_params(), 200000)
for _, answer in pairs(found or {{}}) do
  table.insert(told, 'declared ' .. (answer.result.range.start.line + 1))
end
local file = io.open('told', 'w')
file:write(table.concat(told, '\\n') .. '\\n')
file:close()
vim.cmd('qall!')
"""


def run(words: list[str], folder: pathlib.Path) -> list[str]:
    """The lines that an editor has written into a file; else what it said."""
    (folder / "wrong.plex").write_text(WRONG)
    environment = {**os.environ, "HOME": str(folder), "TERM": "dumb"}
    done = subprocess.run(
        words,
        cwd=folder,
        env=environment,
        stdin=subprocess.DEVNULL,
        stdout=subprocess.PIPE,
        stderr=subprocess.STDOUT,
        timeout=LONGEST,
    )
    told = folder / "told"
    return (
        told.read_text().splitlines() if told.exists() else [done.stdout.decode(errors="replace")]
    )


def compare(found: list[str]) -> None:
    """The faults and the definition are told, each on its line."""
    for line, sentence in WANTED.items():
        is_told = any(one.startswith(f"{line}:") and sentence in one for one in found)
        check(None if is_told else f"{sentence!r} is not told on line {line}: {found}")
    assert found[-1] == f"declared {DECLARED}"


def test_emacs(folder: pathlib.Path) -> None:
    """Emacs with eglot."""
    need_module()
    need_command("emacs")
    script = EMACS.format(editors=EDITORS, python=PYTHON, server=SERVER)
    compare(run(["emacs", "--batch", "--eval", script], folder))


def test_neovim(folder: pathlib.Path) -> None:
    """Neovim."""
    need_module()
    need_command("nvim")
    script = folder / "script.lua"
    script.write_text(NEOVIM.format(editors=EDITORS, python=PYTHON, server=SERVER))
    compare(run(["nvim", "--headless", "--clean", "-c", f"luafile {script}"], folder))


@pytest.mark.parametrize("word", KEYWORDS)
def test_keywords_of_emacs(word: str) -> None:
    """The mode of Emacs has each keyword."""
    assert f'"{word}"' in (EDITORS / "emacs" / "plex-mode.el").read_text()
