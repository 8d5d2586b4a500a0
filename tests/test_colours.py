"""The colours of PP sources in editors, and how editors go to an error: with Emacs, Vim and Kate where they are there."""

import json
import os
import re
import shutil
import unittest
import xml.dom.minidom

from .support import TOP, Case, names_of_codes, read, run, write

EDITORS = os.path.join(TOP, "share", "editors")
SOURCE = """\
* A NOTE LDN
          BASE   OCTAL
 START    LDN    17B         COMMENT LDN 5
          MOVE   A,5         C
          OPDEF  X
LABEL     RJM    SUB
 SUB      SUBR
          LDN    TOTL
"""
# What is shown at a line and a column of it, from 1.
SHOWN = {(1, 3): "Note", (2, 11): "Directive", (3, 2): "Label", (3, 11): "Instruction", (3, 18): "Number", (3, 30): "Comment",
         (4, 11): "", (5, 11): "Refused", (6, 1): "Label", (6, 11): "Instruction", (7, 11): "Macro"}
FAULTS = [(4, 11, "MOVE is no instruction, directive or macro; MACROE is"), (5, 11, "OPDEF is not taken: use MACRO"),
          (8, 18, "TOTL is not defined")]


class Files(Case):
    def test_all_names(self):
        """Each form has the name of each instruction."""
        for name in ("kate/pp6600.xml", "emacs/pp6600-mode.el", "vim/syntax/pp6600.vim", "vscode/syntaxes/pp6600.tmLanguage.json"):
            with self.subTest(name):
                self.assertLessEqual(set(names_of_codes()), set(re.findall(r"\b[A-Z]{3}\b", read("share", "editors", name))))

    def test_forms(self):
        xml.dom.minidom.parse(os.path.join(EDITORS, "kate", "pp6600.xml")).documentElement.normalize()
        package = json.loads(read("share", "editors", "vscode", "package.json"))
        (grammar,) = package["contributes"]["grammars"]
        rules = json.loads(read("share", "editors", "vscode", grammar["path"]))["patterns"]
        matches = [re.match(rules[1]["match"], line) for line in SOURCE.splitlines()[1:]]
        self.assertEqual([None, " START", None, None, "LABEL", " SUB", None], [found[1] for found in matches])
        operations = [next(filter(None, found.groups()[1:5]), None) for found in matches]
        self.assertEqual(["BASE", "LDN", None, "OPDEF", "RJM", "SUBR", "LDN"], operations)
        self.assertEqual(["OCTAL", "17B", "A,5", "X", "SUB", None, "TOTL"], [found[6] for found in matches])
        (matcher,) = package["contributes"]["problemMatchers"]
        found = re.match(matcher["pattern"]["regexp"], "a.pp:8:18: TOTL is not defined")
        self.assertEqual(("a.pp", "8", "18", "TOTL is not defined"), found.groups())


class EditorCase(Case):
    def setUp(self):
        self.source = write(self.path("a.pp"), SOURCE)
        os.symlink(os.path.join(TOP, "tools"), self.path("the tools"))  # with a blank
        self.assembler = self.path("the tools", "assemble")

    def run_editor(self, *words, **how):
        """Runs an editor without a display in the folder of the test. Returns what it wrote into its file `out`."""
        run(*words, cwd=self.folder, env={"HOME": self.folder, "TERM": "dumb", "LC_ALL": "C.UTF-8", **how})
        return read(self.path("out")).splitlines()


@unittest.skipUnless(shutil.which("vim"), "vim is not there")
class Vim(EditorCase):
    """The quickfix list has the errors by Vim's own form of errors, and by that of the file type."""

    def test_colours_and_errors(self):
        looks = "\n".join(f"call add(out, synIDattr(synID({line}, {column}, 1), 'name'))" for line, column in SHOWN)
        lists = ("silent make!\nfor q in getqflist()\n  if q.valid\n"
                 "    call add(out, join([q.lnum, q.col, trim(q.text)], ' '))\n  endif\nendfor")
        write(self.path("look.vim"), f"set nocompatible\nexe 'set runtimepath^=' . fnameescape('{EDITORS}/vim')\n"
              f"let g:pp6600_assembler = '{self.assembler}'\nfiletype plugin on\nsyntax on\nedit a.pp\n"
              f"let out = []\n{looks}\n{lists}\nset errorformat&\n{lists}\n"
              "call writefile(out, 'out')\nqall!\n")
        out = self.run_editor("vim", "-N", "-u", "NONE", "-i", "NONE", "-es", "-S", "look.vim")
        if "+syntax" not in run("vim", "--version").out:
            self.skipTest("this vim has no colours")
        names = {"": "pp6600Other"}
        self.assertEqual([names.get(name, f"pp6600{name}") for name in SHOWN.values()], out[:len(SHOWN)])
        self.assertEqual([f"{line} {column} {text}" for line, column, text in FAULTS] * 2, out[len(SHOWN):])


@unittest.skipUnless(shutil.which("emacs"), "emacs is not there")
class Emacs(EditorCase):
    """M-x compile and next-error."""

    FACES = {"Note": "font-lock-comment-face", "Comment": "font-lock-comment-face", "Label": "font-lock-function-name-face",
             "Instruction": "font-lock-keyword-face", "Directive": "font-lock-builtin-face", "Macro": "font-lock-preprocessor-face",
             "Refused": "font-lock-warning-face", "Number": "font-lock-constant-face", "": "nil"}

    def test_colours_and_errors(self):
        places = " ".join(f"({line} . {column})" for line, column in SHOWN)
        write(self.path("look.el"), f"""
            (load "{EDITORS}/emacs/pp6600-mode.el")
            (setq pp6600-assembler "{self.assembler}")
            (defun write-out (text) (write-region (concat text "\\n") nil "{self.path('out')}" t 'quiet))
            (find-file "a.pp")
            (font-lock-ensure)
            (dolist (at '({places}))
              (goto-char (point-min)) (forward-line (1- (car at))) (forward-char (1- (cdr at)))
              (write-out (format "%s" (get-text-property (point) 'face))))
            (compile compile-command)
            (while (get-buffer-process "*compilation*") (accept-process-output nil 0.1))
            (dotimes (_ {len(FAULTS)})
              (next-error)
              (write-out (format "%s %s %s" (buffer-name) (line-number-at-pos) (1+ (current-column)))))""")
        out = self.run_editor("emacs", "-Q", "--batch", "-l", "look.el")
        self.assertEqual([self.FACES[name] for name in SHOWN.values()], out[:len(SHOWN)])
        self.assertEqual([f"a.pp {line} {column}" for line, column, _ in FAULTS], out[len(SHOWN):])


@unittest.skipUnless(shutil.which("kate-syntax-highlighter"), "Kate's highlighter is not there")
class Kate(EditorCase):
    def test_colours(self):
        """The words of the source in HTML: those of one kind have one style, and those of others have other ones."""
        own = self.path("share", "org.kde.syntax-highlighting", "syntax", "pp6600.xml")
        write(own, read("share", "editors", "kate", "pp6600.xml"))
        done = run("kate-syntax-highlighter", "-s", "PP COMPASS", self.source, cwd=self.folder,
                   env={"HOME": self.folder, "QT_QPA_PLATFORM": "offscreen", "XDG_DATA_HOME": self.path("share")})
        styles = {word: style for style, word in re.findall(r'<span style="([^"]*)">([^<]*)</span>', done.out)}
        self.assertEqual(styles["LDN"], styles["RJM"])
        self.assertEqual(styles[" START"], styles["LABEL"])
        kinds = [styles[word] for word in ("* A NOTE LDN", "BASE", " START", "LDN", "17B", "USE")]
        self.assertEqual(len(kinds), len(set(kinds)), styles)
        self.assertNotIn("MOVE", styles)
