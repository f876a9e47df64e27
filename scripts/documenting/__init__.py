"""The jobs of `scripts/docs`, a module for each: what it prints of the code or the examples."""
