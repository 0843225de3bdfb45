"""The checks of the gate, and what they share."""
