"""What a user meets: the commands, the panel, the films, and the debug adapter."""
