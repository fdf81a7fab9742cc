"""The tests of the programs of tools/, the launcher and the examples. What is expected was worked out by hand."""
