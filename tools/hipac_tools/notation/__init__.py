"""The text notation of scripts: its reader, which keeps places, and the writer of the one canonical text."""
