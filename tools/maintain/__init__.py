"""What builds, packages and installs, and keeps the documents as they must be."""
