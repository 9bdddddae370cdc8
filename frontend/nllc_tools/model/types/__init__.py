"""What rustc's dumps don't print of types: definitions, read off what rustc asks, and structs of a text."""
