"""Makes the colours of PP sources for editors, in share/editors: of Kate, Emacs, Vim and VS Code.

    share/colours            writes the files
    share/colours --check    writes nothing, and fails if one is not what it makes

The names of instructions are those of the one table of the machine, and the others those of the assembler.
"""

import json
import os
import sys

from packaging import TOP

from pp6600.language.notation import BLOCKS, CODES, DIRECTIVES, INSIDE, REFUSED, SUBR
from pp6600.shell.command_line import Failure, write
from pp6600.shell.files import run_over_files

GROUPS = {"Instruction": CODES, "Directive": DIRECTIVES, "Macro": (*BLOCKS, *INSIDE, SUBR), "Refused": REFUSED}
NUMBER = "[0-9]+[BDObdo]?"
MADE = "Made by share/colours."


def names(group):
    return sorted(GROUPS[group])


# ---- Kate

KATE = """<?xml version="1.0" encoding="UTF-8"?>
<!DOCTYPE language SYSTEM "language.dtd">
<!-- {made} -->
<language name="PP COMPASS" section="Assembler" extensions="*.pp" version="1" kateversion="5.0" casesensitive="0" author=""
  license="">
  <highlighting>
{lists}
    <contexts>
      <context name="Line" attribute="Operand" lineEndContext="#stay">
        <RegExpr attribute="Comment" context="#stay" String="^\\*.*$" column="0"/>
        <RegExpr attribute="Label" context="Operation" String="^ ?[^ \\t*]\\S*" column="0"/>
        <RegExpr attribute="Operand" context="Operation" String="^[ \\t]+" column="0"/>
      </context>
      <context name="Operation" attribute="Operand" lineEndContext="#pop">
        <DetectSpaces/>
{rules}
        <RegExpr attribute="Operand" context="Blanks" String="\\S+"/>
      </context>
      <context name="Blanks" attribute="Operand" lineEndContext="#pop#pop">
        <RegExpr attribute="Operand" context="Operands" String="[ \\t]+"/>
      </context>
      <context name="Operands" attribute="Operand" lineEndContext="#pop#pop#pop">
        <RegExpr attribute="Number" context="#stay" String="{number}"/>
        <RegExpr attribute="Operand" context="#stay" String="[A-Z][A-Z0-9.$=]*" insensitive="true"/>
        <RegExpr attribute="Comment" context="#stay" String="[ \\t].*$"/>
      </context>
    </contexts>
    <itemDatas>
      <itemData name="Comment" defStyleNum="dsComment"/>
      <itemData name="Label" defStyleNum="dsFunction"/>
      <itemData name="Instruction" defStyleNum="dsKeyword"/>
      <itemData name="Directive" defStyleNum="dsPreprocessor"/>
      <itemData name="Macro" defStyleNum="dsControlFlow"/>
      <itemData name="Refused" defStyleNum="dsError"/>
      <itemData name="Number" defStyleNum="dsDecVal"/>
      <itemData name="Operand" defStyleNum="dsNormal"/>
    </itemDatas>
  </highlighting>
  <general>
    <comments><comment name="singleLine" start="*" position="afterwhitespace"/></comments>
    <keywords casesensitive="0" weakDeliminator=".$" additionalDeliminator=" "/>
  </general>
</language>
"""


def kate():
    lists = "\n".join(f'    <list name="{group}">\n{items(group)}\n    </list>' for group in GROUPS)
    rules = "\n".join(f'        <keyword attribute="{group}" context="Blanks" String="{group}"/>' for group in GROUPS)
    return KATE.format(made=MADE, lists=lists, rules=rules, number=NUMBER)


def items(group):
    return "\n".join(f"      <item>{name}</item>" for name in names(group))


# ---- Emacs

EMACS = """;;; pp6600-mode.el --- Sources of CDC 6600 peripheral processors -*- lexical-binding: t -*-
;; {made} M-x compile assembles, and next-error goes to each fault.

(defvar pp6600-assembler "pp6600-assemble"
  "The assembler: a program, or a command for the shell.")

(defconst pp6600-mode--before "^\\\\(?: ?[^ \\t\\n*][^ \\t\\n]*\\\\)?[ \\t]+"
  "What is before an operation.")

(defun pp6600-mode--operations (names face)
  "Return the rule that shows operations of these NAMES in a FACE."
  (list (concat pp6600-mode--before "\\\\(" (regexp-opt names) "\\\\)\\\\(?:[ \\t]\\\\|$\\\\)") 1 face))

(defvar pp6600-mode-rules
  (list
   '("^\\\\*.*" 0 font-lock-comment-face t)
   '("^ ?\\\\([^ \\t\\n*][^ \\t\\n]*\\\\)" 1 font-lock-function-name-face)
{rules}
   '("\\\\_<{number}\\\\_>" 0 font-lock-constant-face)
   (list (concat pp6600-mode--before "[^ \\t\\n]+[ \\t]+[^ \\t\\n]+[ \\t]+\\\\(.+\\\\)") 1 'font-lock-comment-face t)))

(define-derived-mode pp6600-mode prog-mode "PP"
  "A mode for sources of peripheral processors."
  (setq-local font-lock-defaults '(pp6600-mode-rules t t))
  (setq-local comment-start "*")
  (setq-local indent-tabs-mode nil)
  (setq-local tab-stop-list '(1 10 17 29))
  (setq-local indent-line-function #'tab-to-tab-stop)
  (when buffer-file-name
    (setq-local compile-command
                (concat (if (executable-find pp6600-assembler) (shell-quote-argument pp6600-assembler) pp6600-assembler)
                        " " (shell-quote-argument buffer-file-name)))))

(add-to-list 'auto-mode-alist '("\\\\.pp\\\\'" . pp6600-mode))

(provide 'pp6600-mode)
"""
FACES = {"Instruction": "font-lock-keyword-face", "Directive": "font-lock-builtin-face", "Macro": "font-lock-preprocessor-face",
         "Refused": "font-lock-warning-face"}


def emacs():
    rules = "\n".join("   (pp6600-mode--operations\n    '({})\n    'font-lock-{})".format(
        in_lines([f'"{name}"' for name in names(group)], " ", 5), face.removeprefix("font-lock-")) for group, face in FACES.items())
    return EMACS.format(made=MADE, rules=rules, number="[0-9]+[BDObdo]?")


def in_lines(words, between, indent):
    """Returns words with a new line after each twelve."""
    rows = [between.join(words[at:at + 12]) for at in range(0, len(words), 12)]
    return ("\n" + " " * indent).join(rows)


# ---- Vim

VIM = """" Colours of sources of CDC 6600 peripheral processors. {made}
if exists('b:current_syntax')
  finish
endif
syntax case ignore
syntax match pp6600Line /^/ nextgroup=pp6600Label,pp6600Gap
syntax match pp6600Gap /\\s\\+/ contained nextgroup={groups},pp6600Other
syntax match pp6600Label / \\?[^ \\t*]\\S*/ contained nextgroup=pp6600Gap
syntax match pp6600Other /\\S\\+/ contained nextgroup=pp6600Far,pp6600Blanks
{rules}
syntax match pp6600Blanks /\\s\\+/ contained nextgroup=pp6600Operand
syntax match pp6600Operand /\\S\\+/ contained contains=pp6600Number nextgroup=pp6600Comment
syntax match pp6600Number /\\<{number}\\>/ contained
syntax match pp6600Comment /\\s.*/ contained
syntax match pp6600Far /\\s\\s\\+\\%>29v\\S.*/ contained
syntax match pp6600Note /^\\*.*/

highlight default link pp6600Note Comment
highlight default link pp6600Comment Comment
highlight default link pp6600Far Comment
highlight default link pp6600Label Function
highlight default link pp6600Instruction Statement
highlight default link pp6600Directive PreProc
highlight default link pp6600Macro Macro
highlight default link pp6600Refused Error
highlight default link pp6600Number Number
let b:current_syntax = 'pp6600'
"""
VIM_DETECT = """" {made}
autocmd BufRead,BufNewFile *.pp set filetype=pp6600
"""
VIM_PLUGIN = """" :make assembles, and :copen shows what is wrong. {made}
if exists('b:did_ftplugin')
  finish
endif
let b:did_ftplugin = 1
let s:assembler = get(g:, 'pp6600_assembler', 'pp6600-assemble')
let &l:makeprg = (executable(s:assembler) ? shellescape(s:assembler, 1) : s:assembler) . ' %:S'
setlocal errorformat=%f:%l:%c:\\ %m,%-G%.%#
setlocal expandtab commentstring=*%s
let b:undo_ftplugin = 'setlocal makeprg< errorformat< expandtab< commentstring<'
"""


def vim():
    rules = "\n".join(f"syntax match pp6600{group} /\\%(" + "\\|".join(names(group)) + ")\\ze\\%(\\s\\|$\\)/ contained "
                      "nextgroup=pp6600Far,pp6600Blanks" for group in GROUPS)
    return VIM.format(made=MADE, groups=",".join(f"pp6600{group}" for group in GROUPS), rules=rules.replace(")\\ze", "\\)\\ze"),
                      number="\\d\\+[BDO]\\?")


# ---- VS Code

SCOPES = {"Instruction": "keyword.operator.word.mnemonic.pp6600", "Directive": "support.function.directive.pp6600",
          "Macro": "keyword.control.pp6600", "Refused": "invalid.illegal.pp6600"}


def vscode():
    """Returns a grammar: a note, or a label, an operation of one of the groups, an operand, and a comment."""
    operations = "|".join(f"({'|'.join(map(escaped, names(group)))})" for group in SCOPES)
    captures = {"1": {"name": "entity.name.function.label.pp6600"},
                **{str(at): {"name": scope} for at, scope in enumerate(SCOPES.values(), 2)},
                "6": {"patterns": [{"match": rf"\b{NUMBER}\b", "name": "constant.numeric.pp6600"}]},
                "7": {"name": "comment.line.pp6600"}}
    rule = rf"(?i)^( ?[^\s*]\S*)?\s+(?:{operations}|\S+)(?=\s|$)(?:\s+(\S+))?(.*)$"
    grammar = {"information_for_contributors": [MADE], "name": "PP COMPASS", "scopeName": "source.pp6600",
               "patterns": [{"match": r"^\*.*$", "name": "comment.line.pp6600"}, {"match": rule, "captures": captures}]}
    return json.dumps(grammar, indent=2) + "\n"


def escaped(name):
    return name.replace(".", "\\.").replace("$", "\\$")


FILES = {"kate/pp6600.xml": kate, "emacs/pp6600-mode.el": emacs, "vim/syntax/pp6600.vim": vim,
         "vim/ftdetect/pp6600.vim": lambda: VIM_DETECT.format(made=MADE),
         "vim/ftplugin/pp6600.vim": lambda: VIM_PLUGIN.format(made=MADE),
         "vscode/syntaxes/pp6600.tmLanguage.json": vscode}


def check(path, text):
    try:
        with open(path, encoding="utf-8") as file:
            is_same = file.read() == text
    except OSError:
        is_same = False
    if not is_same:
        raise Failure(f"{os.path.relpath(path, TOP)} is not what share/colours makes")


def put(path, text):
    os.makedirs(os.path.dirname(path), exist_ok=True)
    with open(path, "w", encoding="utf-8") as file:
        file.write(text)


def written():
    if sys.argv[1:] not in ([], ["--check"]):
        raise Failure("usage: share/colours [--check]")
    for name, make in FILES.items():
        (check if sys.argv[1:] else put)(os.path.join(TOP, "share", "editors", name), make())
    if not sys.argv[1:]:
        write(f"share/editors has {len(FILES)} (decimal) files of colours")


def main():
    run_over_files(written)
