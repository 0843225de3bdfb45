;; Emacs: M-x compile, with `plex run exchange.plex signals.txt' and the like, leads to the faults
;; that plex tells. Put this into your init file.
(with-eval-after-load 'compile
  (dolist (entry '((plex "^\\([^:\n]+\\):\\([0-9]+\\): [A-Z]+[0-9]*: " 1 2)
                   (plex-file "^\\([^:\n]+\\): [A-Z][A-Z0-9]+: " 1)))
    (add-to-list 'compilation-error-regexp-alist-alist entry)
    (add-to-list 'compilation-error-regexp-alist (car entry))))
