"""What writes and tries the pages of docs/."""
