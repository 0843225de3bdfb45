"""What `plex analyse`, `plex-conflicts` and `plex certify` write, and why jobs are kept apart."""
