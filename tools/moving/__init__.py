"""The parts of move-tenant and of check-move."""
