"""What every tool needs of the system: options, files, scripts, the keyboard, and how a tool ends."""
