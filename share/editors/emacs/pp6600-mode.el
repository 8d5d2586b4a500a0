;;; pp6600-mode.el --- Sources of CDC 6600 peripheral processors -*- lexical-binding: t -*-
;; Made by share/colours. M-x compile assembles, and next-error goes to each fault.

(defvar pp6600-assembler "pp6600-assemble"
  "The assembler: a program, or a command for the shell.")

(defconst pp6600-mode--before "^\\(?: ?[^ \t\n*][^ \t\n]*\\)?[ \t]+"
  "What is before an operation.")

(defun pp6600-mode--operations (names face)
  "Return the rule that shows operations of these NAMES in a FACE."
  (list (concat pp6600-mode--before "\\(" (regexp-opt names) "\\)\\(?:[ \t]\\|$\\)") 1 face))

(defvar pp6600-mode-rules
  (list
   '("^\\*.*" 0 font-lock-comment-face t)
   '("^ ?\\([^ \t\n*][^ \t\n]*\\)" 1 font-lock-function-name-face)
   (pp6600-mode--operations
    '("ACN" "ADC" "ADD" "ADI" "ADM" "ADN" "AJM" "AOD" "AOI" "AOM" "CRD" "CRM"
     "CWD" "CWM" "DCN" "EJM" "EXN" "FAN" "FJM" "FNC" "IAM" "IAN" "IJM" "LCN"
     "LDC" "LDD" "LDI" "LDM" "LDN" "LJM" "LMC" "LMD" "LMI" "LMM" "LMN" "LPC"
     "LPN" "MJN" "NJN" "OAM" "OAN" "PJN" "PSN" "RAD" "RAI" "RAM" "RJM" "RPN"
     "SBD" "SBI" "SBM" "SBN" "SCN" "SHN" "SOD" "SOI" "SOM" "STD" "STI" "STM"
     "UJN" "ZJN")
    'font-lock-keyword-face)
   (pp6600-mode--operations
    '("=" "ABS" "ADK" "BASE" "BSS" "BSSZ" "CODE" "COL" "COMMENT" "CON" "CTEXT" "DATA"
     "DECMIC" "DIS" "EJECT" "END" "ENDX" "ENTRY" "EQU" "ERR" "ERRMI" "ERRNG" "ERRNZ" "ERRPL"
     "ERRZR" "IDENT" "LCC" "LDK" "LIST" "LIT" "LOC" "MAX" "MICCNT" "MICRO" "MIN" "NIL"
     "NOLABEL" "NOREF" "OCTMIC" "ORG" "PERIPH" "POS" "QUAL" "SEG" "SET" "SPACE" "SST" "TITLE"
     "TTL" "USE" "VFD" "XREF")
    'font-lock-builtin-face)
   (pp6600-mode--operations
    '("DUP" "ECHO" "ELSE" "ENDD" "ENDIF" "ENDM" "IF" "IFC" "IFCP" "IFEQ" "IFGE" "IFGT"
     "IFLE" "IFLT" "IFMI" "IFNE" "IFPL" "IFPP" "IRP" "LOCAL" "MACRO" "MACROE" "RMT" "SKIP"
     "STOPDUP" "SUBR")
    'font-lock-preprocessor-face)
   (pp6600-mode--operations
    '("CCF" "CFM" "EXT" "IAPM" "MAN" "MXN" "OAPM" "OPDEF" "ORGC" "PPOP" "PPU" "SCF"
     "SEGMENT" "SFM" "STEXT")
    'font-lock-warning-face)
   '("\\_<[0-9]+[BDObdo]?\\_>" 0 font-lock-constant-face)
   (list (concat pp6600-mode--before "[^ \t\n]+[ \t]+[^ \t\n]+[ \t]+\\(.+\\)") 1 'font-lock-comment-face t)))

(define-derived-mode pp6600-mode prog-mode "PP"
  "A mode for sources of peripheral processors."
  (setq-local font-lock-defaults '(pp6600-mode-rules t t))
  (setq-local comment-start "*")
  (setq-local indent-tabs-mode nil)
  (setq-local tab-stop-list '(1 10 17 29))
  (setq-local indent-line-function #'tab-to-tab-stop)
  (when buffer-file-name
    (setq-local compile-command
                (concat (if (executable-find pp6600-assembler) (shell-quote-argument pp6600-assembler) pp6600-assembler)
                        " " (shell-quote-argument buffer-file-name)))))

(add-to-list 'auto-mode-alist '("\\.pp\\'" . pp6600-mode))

(provide 'pp6600-mode)
