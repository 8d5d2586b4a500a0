"""Tools that turn words, cards, tapes, sources and symbols into each other; `save` and `show` perform a script first."""
