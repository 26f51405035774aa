"""Bend files, their readable descriptions, and the answers of bendsolve."""

VERSION = "3.0.5"
