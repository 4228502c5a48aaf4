"""The tests of the package. From the top of the repository:

    python3 -m unittest discover -s python/tests -t python

Those that need the program take $STEWORK, or the one that is built in the repository. Where $STEWORK is not set and none is
built they are skipped, and it says so; where it is set, a program that is not there fails them.
"""
