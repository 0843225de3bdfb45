"""Second accounts of analyses, runs and listings, written from the documents alone."""
