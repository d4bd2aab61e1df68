"""Sweeps and fuzzing in parts, by the engines of others: Dask, and GNU parallel."""
