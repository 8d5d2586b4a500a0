"""What simulates: which program is run, and the simulator in plain Python."""
