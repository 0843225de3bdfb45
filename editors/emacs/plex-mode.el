;;; plex-mode.el --- exchange texts in Emacs, with the language server  -*- lexical-binding: t; -*-

;;; Commentary:

;; Load this file: files *.plex are opened in `plex-mode', and signal files, tables and filters by
;; `plex-lines-mode'.  M-x eglot starts plex-lsp, which tells faults as you type, cures them, finds
;; where names are declared and used, and completes them.  Eglot is a part of Emacs 29, and Debian's
;; package elpa-eglot before.

;;; Code:

(defgroup plex nil
  "Exchange texts."
  :group 'languages)

(defcustom plex-lsp-command '("plex-lsp")
  "The command that starts the language server, as a list of words."
  :type '(repeat string))

(defconst plex-mode-keywords
  '("SIGNAL" "SINGLE" "COMBINED" "BUFFERED" "DIRECT" "OUTSIDE" "DATA" "ANSWER" "BLOCK" "DECLARE"
    "VARIABLE" "TEMPORARY" "FILE" "FORLOPP" "FIELD" "WIDTH" "SIZE" "INIT" "SURVEY" "RECEIVE" "SEND"
    "PROGRAM" "END" "GOTO" "IF" "THEN" "ELSE" "FI" "CASE" "IS" "WHEN" "DO" "OTHERWISE" "ESAC" "ON"
    "FROM" "UPTO" "NO" "FOR" "FIRST" "IN" "WHERE" "ENTER" "WITH" "REFERENCE" "NEW" "RETRIEVE"
    "RETURN" "TRANSFER" "EXIT" "SEIZE" "FREE" "AND" "OR" "MOD" "CLEAR")
  "The keywords of exchange texts.")

(defconst plex-mode-line-keywords
  '("AFTER" "EVERY" "FROM" "TIMES" "SHOW" "BLOCK" "SIGNAL" "FORLOPP" "UPTO" "FAULTS" "NEW" "NONE"
    "AS")
  "The words of signal files, tables and filters.")

(defvar plex-mode-syntax-table
  (let ((table (make-syntax-table)))
    (modify-syntax-entry ?! "<" table)
    (modify-syntax-entry ?\n ">" table)
    table)
  "A comment goes from ! to the end of its line.")

;;;###autoload
(define-derived-mode plex-mode prog-mode "PLEX"
  "Major mode for exchange texts."
  (setq-local comment-start "! " comment-end "" comment-start-skip "!+[ \t]*")
  (setq-local font-lock-defaults (list (list (regexp-opt plex-mode-keywords 'words)))))

;;;###autoload
(define-derived-mode plex-lines-mode prog-mode "PLEX lines"
  "Major mode for signal files, tables of periodic signals and filters."
  :syntax-table plex-mode-syntax-table
  (setq-local comment-start "! " comment-end "")
  (setq-local font-lock-defaults (list (list (regexp-opt plex-mode-line-keywords 'words)))))

;;;###autoload
(add-to-list 'auto-mode-alist '("\\.plex\\'" . plex-mode))
(add-to-list 'magic-fallback-mode-alist
             '("\\(?:!.*\n\\|[ \t]*\n\\)*[ \t]*\\(?:AFTER [0-9]+ \\|EVERY [0-9]+ FROM \\|SHOW\\_>\\)"
               . plex-lines-mode))

(defvar eglot-server-programs)
(with-eval-after-load 'eglot
  (add-to-list 'eglot-server-programs
               '((plex-mode plex-lines-mode) . (lambda (&rest _) plex-lsp-command))))

(provide 'plex-mode)

;;; plex-mode.el ends here
