"""The call scripts that the program `replay` runs, with what it must print, a module by subject."""
