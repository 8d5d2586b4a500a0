"""The devices of the package, which tools find by their names."""
