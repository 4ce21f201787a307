"""What tools/test/rules rests on: the rules of rights in Python, and directories made by chance."""
