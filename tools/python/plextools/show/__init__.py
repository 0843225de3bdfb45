"""What is drawn: the page of plex-page."""
