"""Exact names of layers of any size: regions are given to the engine, on many processors or
machines.
"""
