"""Readable books: each module is one idea; `command_line` is what the script calls."""
