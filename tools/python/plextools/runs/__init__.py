"""What an exchange does with the lines of a signal file, and how several workers share its jobs."""
