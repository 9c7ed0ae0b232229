"""The pages, the interface for programs, and launches from learning platforms."""
