"""The parts of erase.py: tokens, rules, and what is known."""
