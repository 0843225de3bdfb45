;;; plex-check.el --- the faults of exchange texts in Emacs  -*- lexical-binding: t; -*-

;;; Commentary:

;; Load this file, and call `plex-check' in a buffer with an exchange text: it runs plex-check on the
;; file, and `next-error' goes from fault to fault.  With a prefix argument it asks for the words of
;; the command, to which a signal file, a table or a filter may be added.

;;; Code:

(require 'compile)

(defgroup plex-check nil
  "The faults of exchange texts."
  :group 'tools)

(defcustom plex-check-command "plex-check --short"
  "The command that tells the faults of an exchange text."
  :type 'string)

(defconst plex-check-line
  '(plex-check "^\\(.+?\\):\\([0-9]+\\):\\([0-9]+\\): \\([A-Z0-9]+\\): " 1 2 3)
  "How a line of plex-check begins: file, line, column and word.")

(add-to-list 'compilation-error-regexp-alist-alist plex-check-line)
(add-to-list 'compilation-error-regexp-alist 'plex-check)

;;;###autoload
(defun plex-check (command)
  "Run COMMAND, by itself plex-check on the file of the buffer, and list the faults."
  (interactive
   (let ((command (concat plex-check-command " " (shell-quote-argument (file-relative-name buffer-file-name)))))
     (list (if current-prefix-arg (read-shell-command "Command: " command) command))))
  (compilation-start command))

(provide 'plex-check)

;;; plex-check.el ends here
