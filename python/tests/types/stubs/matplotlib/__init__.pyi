# In place of stubs of matplotlib: a name alone.
