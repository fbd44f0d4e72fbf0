"""Modules that the scripts of this repository share. A script imports one in this way:

sys.dont_write_bytecode = True
sys.path.insert(0, str(TOP))
from tools import command_line, crates
"""
