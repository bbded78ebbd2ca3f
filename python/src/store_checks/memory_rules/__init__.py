"""How tests/memory reads the sources: their text, the rules, and what is let pass."""
