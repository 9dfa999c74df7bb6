"""The parts of check-memory."""
