"""The parts of check-examples."""
