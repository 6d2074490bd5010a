"""The code that several checks use, and the programs in bench/. Nothing here is a check itself."""
