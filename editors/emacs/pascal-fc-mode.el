;;; pascal-fc-mode.el --- a mode for Pascal-FC, derived from pascal-mode  -*- lexical-binding: t -*-

;; The words are written by editors/make-words.  To use it:
;;   (add-to-list 'load-path "DONKEYMARCH/editors/emacs")
;;   (autoload 'pascal-fc-mode "pascal-fc-mode" nil t)
;;   (add-to-list 'auto-mode-alist '("\\.\\(pfc\\|pas\\)\\'" . pascal-fc-mode))

;;; Code:

(require 'pascal)
(require 'compile)

(defconst pascal-fc-reserved '("accept" "and" "array" "begin" "case" "channel" "cobegin" "coend" "const" "div" "do" "downto" "else" "end" "entry" "export" "for" "forever" "function" "guarded" "if" "mod" "monitor" "not" "null" "of" "or" "pri" "procedure" "process" "program" "record" "repeat" "replicate" "requeue" "resource" "select" "terminate" "then" "timeout" "to" "type" "until" "var" "when" "while"))
(defconst pascal-fc-types '("integer" "boolean" "char" "semaphore" "condition" "synchronous"))
(defconst pascal-fc-constants '("true" "false" "maxint"))
(defconst pascal-fc-routines '("any" "abs" "sqr" "odd" "ord" "chr" "succ" "pred" "eof" "eoln" "empty" "clock" "random" "read" "readln" "write" "writeln" "initial" "wait" "signal" "delay" "resume" "sleep"))

(defvar pascal-fc-command "pfcwalk" "The command that runs a text.")

(defvar pascal-fc-font-lock-keywords
  (list (cons (regexp-opt pascal-fc-reserved 'words) 'font-lock-keyword-face)
        (cons (regexp-opt pascal-fc-types 'words) 'font-lock-type-face)
        (cons (regexp-opt pascal-fc-constants 'words) 'font-lock-constant-face)
        (cons (regexp-opt pascal-fc-routines 'words) 'font-lock-builtin-face))
  "What is shown how in `pascal-fc-mode'.")

(defvar pascal-fc-file nil "The file that was run last, as pfcwalk names none in what it writes.")

(add-to-list 'compilation-error-regexp-alist 'pascal-fc-refused)
(add-to-list 'compilation-error-regexp-alist 'pascal-fc-line)
(add-to-list 'compilation-error-regexp-alist-alist
             '(pascal-fc-refused "^-- refused [0-9]+ at line \\([0-9]+\\), column \\([0-9]+\\)"
                                 (lambda () pascal-fc-file) 1 2))
(add-to-list 'compilation-error-regexp-alist-alist
             '(pascal-fc-line "^\\(?:-- fault\\|process\\) .* at line \\([0-9]+\\)$"
                              (lambda () pascal-fc-file) 1))

(defun pascal-fc-run ()
  "Run the text of this buffer."
  (interactive)
  (save-buffer)
  (setq pascal-fc-file buffer-file-name)
  (compile (concat pascal-fc-command " " (shell-quote-argument buffer-file-name))))

;;;###autoload
(define-derived-mode pascal-fc-mode pascal-mode "Pascal-FC"
  "A mode for texts of Pascal-FC."
  (setq-local font-lock-defaults '(pascal-fc-font-lock-keywords nil t))
  (setq-local pascal-auto-lineup nil)
  (define-key pascal-fc-mode-map (kbd "C-c C-r") #'pascal-fc-run))

(provide 'pascal-fc-mode)
;;; pascal-fc-mode.el ends here
