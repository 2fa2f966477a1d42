"""`cube`: listings of tapes, and what a desk asks about them, over the proved programs `runner`, `evening` and `desk`.

What an auction answers comes from those programs. These modules choose tapes, run the programs, and present what they said.
"""
