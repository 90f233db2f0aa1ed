"""Splits a problem into cubes, which many machines solve, and believes none of them: gulfezo-cubes FILE --cubes N

A cube is a list of literals. The cubes of a run are the leaves of a tree, in which each branch decides a variable, so
together they cover all assignments. A refutation of the problem is then one of each cube (of the problem with the
cube's literals as further clauses), and one of the clauses that negate the cubes, which shows that they cover all.
(M. Heule, O. Kullmann, S. Wieringa, A. Biere, "Cube and Conquer", HVC 2011.)

`python/README.md` tells users of it, and docs/SCALE.md how far it goes.
"""
