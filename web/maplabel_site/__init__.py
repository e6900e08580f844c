"""What the scripts of this folder share: one file of the modules, names with their zooms,
projection, and sites.
"""
