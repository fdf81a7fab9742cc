"""What the scripts of bench/ have in common."""
