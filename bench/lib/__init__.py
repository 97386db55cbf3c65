"""What the scripts of bench/ share, Python of the standard library alone. A script takes it in with bench/ on its path."""
