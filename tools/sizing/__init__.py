"""The parts of size."""
