"""An nginx with TLS and passwords in front of a host, and other people's clients of it."""
