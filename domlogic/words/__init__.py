"""The words `prove`, `show` and `explain`, a module each: from words to the text and the status."""
