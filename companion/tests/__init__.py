"""The tests of the companion: `python3 -m unittest` in the folder above."""
