;;; Opens f.yaml under the server of $SERVER, edits it, and prints what flymake shows.  -*- lexical-binding: t -*-
;; emacs --batch -l eglot.el
(package-initialize)
(require 'eglot)
(require 'flymake)
(setq eglot-autoshutdown t
      eglot-send-changes-idle-time 0
      flymake-no-changes-timeout 0)
(define-derived-mode my-yaml-mode text-mode "YAML")
(add-to-list 'auto-mode-alist '("\\.yaml\\'" . my-yaml-mode))
(add-to-list 'eglot-server-programs `(my-yaml-mode . ,(split-string (getenv "SERVER") " ")))

(defvar published 0 "How many publications came.")
(advice-add 'jsonrpc-connection-receive :after
            (lambda (_ message)
              (when (equal (plist-get message :method) "textDocument/publishDiagnostics")
                (setq published (1+ published)))))

(defun note (step)
  (princ (format "%s\n" step))
  (dolist (diagnostic (sort (flymake-diagnostics) (lambda (a b) (< (flymake-diagnostic-beg a) (flymake-diagnostic-beg b)))))
    (let ((begin (flymake-diagnostic-beg diagnostic)) (end (flymake-diagnostic-end diagnostic)))
      (princ (format "  %d:%d..%d %s: %s '%s'\n"
                     (line-number-at-pos begin)
                     (save-excursion (goto-char begin) (- begin (line-beginning-position)))
                     (- end begin)
                     (substring (symbol-name (flymake-diagnostic-type diagnostic)) (length "eglot-"))
                     (flymake-diagnostic-text diagnostic)
                     (buffer-substring-no-properties begin end))))))

(defun step (name act)
  "Does something, waits for a publication, and tells what is shown."
  (let ((before published) (end (+ (float-time) 20)))
    (funcall act)
    (while (and (= published before) (< (float-time) end))
      (accept-process-output nil 0.02))
    (note name)))

(defun edit (act)
  "Makes an edit.  In batch the timer that sends it never ends."
  (save-excursion (goto-char (point-min)) (funcall act))
  (eglot--signal-textDocument/didChange))

(find-file "f.yaml")
(buffer-enable-undo)
(flymake-mode 1)
(step "opened" (lambda () (apply #'eglot (eglot--guess-contact))))
(step "typed" (lambda () (edit (lambda () (forward-line 1) (end-of-line) (insert " \U0001F600 é ")))))
(undo-boundary)
(step "two lines"
      (lambda ()
        (edit (lambda ()
                (forward-line 1)
                (delete-region (point) (line-beginning-position 3))
                (insert "x:  yes\n\U0001F600: \"y\n")))))
(undo-boundary)
(step "undone" (lambda () (edit (lambda () (undo)))))
(step "configured"
      (lambda ()
        (setq-default eglot-workspace-configuration
                      '(:zutkrad (:config "rules: {colons: enable, trailing-spaces: enable}" :maxProblems 1)))
        (eglot-signal-didChangeConfiguration (eglot-current-server))))
(let ((server (eglot-current-server)))
  (eglot-shutdown server)
  (princ (format "stopped %s\n" (not (jsonrpc-running-p server)))))
