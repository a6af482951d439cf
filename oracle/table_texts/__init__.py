"""The table files of the program `table_files`, by subject, and its event file."""
