"""Lays out a chain of conditions: what one case gives is indented below its condition, which the formatter of the kit does not
do."""


def indented(text):
    """Returns the text with each line after a `then` at the end of a line moved to the right, up to the line that begins with
    `else`."""
    lines, is_case = [], False
    for line in text.split("\n"):
        words = line.split()
        is_case = is_case and words[:1] != ["else"]
        lines.append("    " * (is_case or words[:1] == ["then"]) + line)
        is_case = is_case or words[-1:] == ["then"]
    return "\n".join(lines)
