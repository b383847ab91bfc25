"""The five notations, by their numbers: document 01, "The job", and document 02, "The Starlink notation"."""

NOTATIONS = FITS, OGIP, CDS, VOUNITS, STARLINK = 1, 2, 3, 4, 5
# Numbers of 32 bits that are none: beside the list, the largest of 8 and of 32 bits, and those whose last 8 or 16 bits are a notation's
NO_NOTATIONS = (0, 6, 255, 257, 261, 65541, 4294967295)
