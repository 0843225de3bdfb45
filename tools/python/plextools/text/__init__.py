"""Exchange texts, signal files, tables and filters: how they are read, and what is wrong with them.
"""
