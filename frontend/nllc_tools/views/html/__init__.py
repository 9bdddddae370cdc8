"""Static pages of texts, and their index.

The values are those that `nllc` prints. Nothing here computes them. `templates/` has the HTML, CSS and JavaScript.
"""
