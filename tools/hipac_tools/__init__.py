"""The tools of `./hipac-tools`, for those who write scripts for hipac."""
