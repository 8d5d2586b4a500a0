"""Changes of what LLVM writes, for machines that the Rattle kit does not compile for. Nothing proves this file.

The kit compiles a proved crate to one LLVM module, for x86-64 Linux. These functions change its two lines that name the machine,
and attributes of its functions; no instruction."""

import re

LINUX = ("e-m:e-p270:32:32-p271:32:32-p272:64:64-i64:64-i128:128-f80:128-n8:16:32:64-S128", "x86_64-unknown-linux-gnu")
WINDOWS = ("e-m:w-p270:32:32-p271:32:32-p272:64:64-i64:64-i128:128-f80:128-n8:16:32:64-S128", "x86_64-w64-windows-gnu")
WEBASSEMBLY = ("e-m:e-p:64:64-p10:8:8-p20:8:8-i64:64-i128:128-n32:64-S128-ni:1:10:20", "wasm64-unknown-unknown")
CUSTOM, TABLE, ELEMENTS = 0, 4, 9  # kinds of sections of a WebAssembly module


def lines_of(machine):
    """Returns the two lines of a module that name its machine: how data is laid out, and the machine's name."""
    return 'target datalayout = "{}"\ntarget triple = "{}"\n'.format(*machine)


def named_anew(module, machine):
    """Returns a module of x86-64 Linux with another machine's two lines. Raises ValueError if it does not have these lines once."""
    if module.count(lines_of(LINUX)) != 1:
        raise ValueError("this is no module for x86-64 Linux: the kit's LLVM lays out data in another way")
    return module.replace(lines_of(LINUX), lines_of(machine))


def for_windows(module):
    """Returns a module for 64-bit Windows. How a large frame is touched is left to LLVM, which calls a function for it there."""
    return named_anew(module, WINDOWS).replace(' "probe-stack"="inline-asm"', "")


def for_webassembly(module):
    """Returns a module for WebAssembly with 64-bit addresses, which has no processor's attributes. Raises ValueError if the module
    calls an instruction of its processor by name."""
    if re.search(r"@llvm\.(x86|aarch64)\.", module):
        raise ValueError("the module calls an instruction of its processor")
    module = re.sub(r' "(?:target-cpu|target-features|tune-cpu|probe-stack|stack-probe-size|frame-pointer)"="[^"]*"', "",
                    named_anew(module, WEBASSEMBLY))
    return re.sub(r"^(attributes #\d+ = \{) *\}$", r"\1 nounwind }", module, flags=re.M)


def number_at(data, at):
    """Returns a number of a WebAssembly module, seven bits a byte, and where it ends."""
    value = shift = 0
    while data[at] >= 128:
        value |= (data[at] & 127) << shift
        at, shift = at + 1, shift + 7
    return value | data[at] << shift, at + 1


def without_table(module):
    """Returns a WebAssembly module without its empty table of functions, whose 64-bit limits older engines do not read, and without
    custom sections, as names. Raises ValueError if a call could use the table."""
    kept, at = module[:8], 8
    while at < len(module):
        size, start = number_at(module, at + 1)
        if module[at] == ELEMENTS:
            raise ValueError("the module calls functions through its table")
        if module[at] not in (CUSTOM, TABLE):
            kept += module[at:start + size]
        at = start + size
    return kept
