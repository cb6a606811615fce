;;; serve.el --- What Eglot makes of `tml-corpus serve': a line for each step  -*- lexical-binding: t -*-

;; TML_SERVE has the words of the server, between spaces; TML_DOCUMENT is the document.

(require 'package)
(package-initialize)
(unless (require 'eglot nil t)
  (message "no eglot")
  (kill-emacs 0))

(defun waiting (ready)
  "Waits until READY answers something, and answers that."
  (let ((turns 0) found)
    (while (and (not (setq found (funcall ready))) (< turns 3000))
      (accept-process-output nil 0.1)
      (setq turns (1+ turns)))
    found))

(defun said (word)
  "Whether some diagnostic of this buffer has WORD in it."
  (flymake-start)
  (seq-some (lambda (one) (and (string-match-p word (flymake-diagnostic-text one)) one)) (flymake-diagnostics)))

(add-to-list 'eglot-server-programs (cons 'nxml-mode (split-string (getenv "TML_SERVE") " ")))
(setq eglot-sync-connect 300
      jsonrpc-default-request-timeout 300)
(find-file (getenv "TML_DOCUMENT"))
(nxml-mode)
(apply #'eglot (eglot--guess-contact))
(message "said: %s" (flymake-diagnostic-text (waiting (lambda () (said "State")))))
(goto-char (point-min))
(search-forward "State")
(replace-match "STATE" t)
(eglot--signal-textDocument/didChange)
(message "then: %s" (flymake-diagnostic-text (waiting (lambda () (said "creation time")))))
(let ((hover (jsonrpc-request (eglot-current-server) :textDocument/hover (eglot--TextDocumentPositionParams))))
  (message "hover: %s" (plist-get (plist-get hover :contents) :value)))
(goto-char (point-min))
(search-forward "eid=\"e1")
(backward-char)
(eglot-rename "e7")
(message "renamed: %s" (buffer-substring (line-beginning-position) (line-end-position)))
(set-buffer-modified-p nil)
(eglot-shutdown (eglot-current-server) nil 300)
(message "stopped")
