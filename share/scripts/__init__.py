"""What the commands of the folder above do, each in a module of its name."""
