"""What tools/site makes its pages of: the folder of sources (folder.py), and the pages of the rules (rule.py)."""
