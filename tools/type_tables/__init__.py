"""The tables that are made from the list of record types: each module has those of one language."""
