"""The tools' own tests. `tools/test` runs them."""
