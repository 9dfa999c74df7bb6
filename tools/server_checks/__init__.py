"""The tests of check-server; what waits for moments goes beside the rest."""
