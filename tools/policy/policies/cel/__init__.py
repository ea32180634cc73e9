"""The Common Expression Language: texts to trees, and back."""
