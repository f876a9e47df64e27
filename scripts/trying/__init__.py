"""The jobs of `scripts/trial`, a module for each: what it tries, its words and what it prints."""
