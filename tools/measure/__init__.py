"""What measures times and memory, and writes the figures of the documents."""
