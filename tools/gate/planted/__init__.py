"""Faults that are planted in answers of the programs and in the tools, and the check that must tell
each.
"""
