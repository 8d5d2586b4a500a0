"""The tools that look at a run: a command is its options and its text. What several of them need is in run, language or shell."""
