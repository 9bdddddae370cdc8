"""MIR texts: made of what rustc dumps of a function, and written.

`nllc` reads such a text by its proved rules: it takes no constraint of rustc's. What rustc's dumps don't print of types
is read off what rustc asks (`model.definitions`).
"""
