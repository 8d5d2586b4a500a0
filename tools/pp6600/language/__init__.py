"""The language of the sources: assembling, disassembling, listings, symbols, and calls."""
