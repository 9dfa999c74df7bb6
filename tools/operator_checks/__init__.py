"""The tests of check-operator on what a tenant may take, and on what is told of it in numbers."""
