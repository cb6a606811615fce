"""Making what people install: wheels, packages for Debian, archives of programs, and files for browsers, with sums and notices."""
