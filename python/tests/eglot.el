;;; Drives the language server by Emacs and eglot, by hand.  -*- lexical-binding: t -*-
;;
;;     cd FOLDER; PYTHONPATH=.../python emacs --batch -l .../python/tests/eglot.el
;;
;; FOLDER is an empty one: a text is written there. It is for eglot 1.9, as Debian 12 has it.

(package-initialize)
(require 'eglot)
(setq make-backup-files nil eglot-sync-connect 10)
(defvar page "interface Page : Base {
  undefined f(Page other);
};
partial interface Page { attribute long x };
")
(write-region page nil "page.webidl")
(define-derived-mode webidl-mode prog-mode "WebIDL")
(add-to-list 'auto-mode-alist '("\\.webidl\\'" . webidl-mode))
(find-file "page.webidl")
(eglot '(webidl-mode) (cons 'transient default-directory) 'eglot-lsp-server
       '("python3" "-m" "weedle" "lsp") "webidl")
(flymake-mode 1)
(with-timeout (10 (error "no errors are told"))
  (while (not (flymake-diagnostics))
    (accept-process-output nil 0.05)
    (flymake-start)))
(dolist (it (flymake-diagnostics))
  (message "error %s %s" (line-number-at-pos (flymake-diagnostic-beg it)) (flymake-diagnostic-text it)))
(goto-char (point-min))
(search-forward "f(Pa")
(message "definition %s" (xref-backend-definitions 'eglot (xref-backend-identifier-at-point 'eglot)))
(goto-char (point-max))
(search-backward "x }")
(forward-char)
(insert ";")
(eglot--signal-textDocument/didChange)
(goto-char (point-min))
(search-forward "f(Pa")
(eglot-rename "Sheet")
(eglot-format-buffer)
(message "%s" (buffer-string))
(eglot-shutdown (eglot-current-server))
