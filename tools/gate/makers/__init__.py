"""What makes texts, exchanges and faults for checks and measurements."""
