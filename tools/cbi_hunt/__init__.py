"""The parts of cbi-hunt: its words, its inputs, its folder, its runs, and what it tells. Not proved."""
