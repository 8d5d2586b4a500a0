"""A run, and all that is asked about it: one way to go to a position of it, to look at the machine there, and to search.

docs/ARCHITECTURE.md says what each module is for. A front end asks a session, and shows what it returns."""
