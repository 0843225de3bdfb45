"""The commands, each with a `main` that a program of tools/bin calls."""
