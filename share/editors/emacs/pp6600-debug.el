;;; pp6600-debug.el --- Debug the peripheral processors of a CDC 6600 -*- lexical-binding: t -*-
;; It needs dap-mode. The page docs/PANEL.md says how it is used.

(defvar treemacs-text-scale nil) ; dap-ui-sessions needs it
(require 'dap-mode)
(require 'dap-ui)

(defvar pp6600-debug-adapter '("pp6600-debug-adapter")
  "The command of the debug adapter.")

(add-to-list 'revert-without-query "\\.pplist\\'") ; listings follow the machine
(dap-register-debug-provider
 "pp6600" (lambda (conf) (dap--put-if-absent conf :dap-server-path pp6600-debug-adapter)))

(defun pp6600-debug-source (source deck)
  "Debug a SOURCE in PP 00 with a DECK of cards; without one, type RET."
  (interactive "fSource: \nsDeck (or nothing): ")
  (dap-debug (list :type "pp6600" :request "launch" :name (file-name-nondirectory source)
                   :sources (list :0 (expand-file-name source)) :processor "0"
                   :deck (if (string-empty-p deck) "" (expand-file-name deck)))))

(defun pp6600-debug (script deck)
  "Debug a SCRIPT of the console with a DECK of cards; without one, type RET."
  (interactive "fScript: \nsDeck (or nothing): ")
  (dap-debug (list :type "pp6600" :request "launch" :name (file-name-nondirectory script)
                   :script (expand-file-name script) :processor "0"
                   :deck (if (string-empty-p deck) "" (expand-file-name deck)))))

;; dap-mode has no commands for these.
(defun pp6600-step-back ()
  "Go back to before the last turn of the processor."
  (interactive)
  (dap--step "stepBack" (dap--cur-session-or-die)))

(defun pp6600-reverse-continue ()
  "Run back to a breakpoint, or to the beginning."
  (interactive)
  (dap--step "reverseContinue" (dap--cur-session-or-die)))

(dap-mode 1)
(dap-ui-mode 1)
(define-key dap-mode-map [f5] #'dap-continue)
(define-key dap-mode-map [S-f5] #'pp6600-reverse-continue)
(define-key dap-mode-map [f9] #'dap-breakpoint-toggle)
(define-key dap-mode-map [f10] #'dap-next)
(define-key dap-mode-map [f11] #'pp6600-step-back)
(define-key dap-mode-map [f12] #'dap-ui-repl)

(provide 'pp6600-debug)
