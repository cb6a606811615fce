"""Making the library for C, the module for browsers and programs for other systems, and measures of the merge gate."""
