"""What stands around the two proved programs: why a file has no better answer, and a MiniZinc model's way to a checked one.

Nothing here reads FlatZinc. What a file says is what `fzncheck --items` says of it, and what is true of it is what `fzncheck` accepts."""
