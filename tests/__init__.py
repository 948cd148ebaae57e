"""What holds the proved programs to the documents, in three folders; each imports only from those listed before it.

    independent   document 01 told a second time, in Python
    generators    inputs, each a function of a seed and an index
    checks        the tests of all this, the kept cases, the comparison and the gate

Names are imported from the repository's folder, which a file that is run as a command puts on the path itself.
There, all tests of checks or those of one file are run by

    python3 -m unittest discover -s tests/checks -t .
    python3 -m unittest tests.checks.test_rules
"""
