"""What editors are given of the language: files for Vim, and a grammar for those that read TextMate's, made of one list of words."""
