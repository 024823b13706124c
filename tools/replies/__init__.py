"""What tools over the program share: its sessions and replies (`session`), its image files (`image`), and
how they end (`ending`).

All of it follows docs/FORMATS.md, and nothing here looks into the program.
"""
