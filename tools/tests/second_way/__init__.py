"""A second way to what is made of a report: tables, page and layers, computed of tracks and records by code that shares nothing
with the makers in python/homerange and r/R. Ranges are those of homerange_verifier, which has its own method too."""
