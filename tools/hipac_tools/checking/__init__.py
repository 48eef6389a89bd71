"""What `check` stands on: a reading of scripts, in the order of the program's checks, that says why and where."""
