"""The parts of docs/definitions.py: it reads the sources, finds what a contract rests on, and writes both pages."""
