"""Slow models of the program's commands, written from the standards and docs/, for tools/fuzz."""
