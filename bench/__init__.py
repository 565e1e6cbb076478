"""The benchmark: each command of this folder is the module of its name."""
