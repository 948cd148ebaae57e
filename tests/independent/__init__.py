"""The independent program: document 01 told a second time, in Python, to hold the proved programs against."""
