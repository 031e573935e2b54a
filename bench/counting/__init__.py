"""What `bench/figures.py` counts: a module for each group of rows."""
