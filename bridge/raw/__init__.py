"""What GHDL's synthesis prints, read as a tree, written anew within the language, and printed."""
