"""Role-based access control policies as people write them, YAML with texts of CEL, to filter bytes and back.

This is a tool beside the engine, on well-kept libraries. It is no part of what is proved: the engine reads every filter
for itself, and what this tool writes is taken no more on trust than any other bytes.
"""
