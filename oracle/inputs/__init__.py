"""The event files of the program `event_files`, by subject."""
