"""The parts of bench/draw."""
