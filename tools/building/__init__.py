"""What prove, serve-checked and time-checked share: the list of crates, and the programs that are built of them."""
