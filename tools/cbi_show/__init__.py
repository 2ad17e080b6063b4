"""What people are shown of runs, rankings and refusals: formats, lines, words, pages. Not proved."""
