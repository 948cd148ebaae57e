"""Tools around the programs: building and running one, which ./run does, telling a listing in words, and making a table
from CSP text and back; and around the sources: what nothing uses and what a definition rests on.
"""
