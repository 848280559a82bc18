"""The version, as the file VERSION of the repository has it."""

VERSION = "0.1.0"
