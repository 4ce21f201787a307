"""A page for auditors: who may take over what rules the domain, target by target, the worst first. No rule of access
stands here: who may what is asked of the program, by `questions.py` alone. Not proved."""
