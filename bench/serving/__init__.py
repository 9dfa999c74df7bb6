"""The parts of bench/server; bench/before and bench/operator take some too."""
