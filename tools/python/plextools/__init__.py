"""The tools of plex for its users: what they know of texts, analyses and runs, and what they show.
"""

VERSION = "1.0.0"  # of the tools and of the programs with which they work
