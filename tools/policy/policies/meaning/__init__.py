"""What filters mean, for a solver: a request as variables, and each rule and condition as a formula over them.

Only this package needs `python3-z3`, so it is imported where a question is asked, and nowhere before.
"""
