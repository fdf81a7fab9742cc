"""What brings text and the repository to today's names."""
