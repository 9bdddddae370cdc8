"""Which token of a refused text is wrong.

The program alone judges a text (its line and the kind of its fault are proved); `culprit` looks for the token that
the kind is about, by `forms` and by what the lines before it declare.
"""
