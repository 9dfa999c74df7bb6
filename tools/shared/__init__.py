"""What several commands share, those of bench/ too."""
