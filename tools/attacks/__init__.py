"""Attacks on a host by one tenant's clients, and another tenant beside them: for bench/rude, check-rude and check-size."""
