"""What xcsim tells, in words: its rules, what stands at a place of a text, and what a compiler's user is shown."""
