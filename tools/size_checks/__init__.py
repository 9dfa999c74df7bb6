"""The parts of check-size."""
