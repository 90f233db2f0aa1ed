"""A second reading of docs/FORMATS.md, written apart from the program: a reader, a printer and a checker.

It shares no code and no definition with the program or with the rest of this package, and needs the standard library
alone. `fuzz/` compares it with the program on random inputs and answers, and `gulfezo-recheck` judges an answer by it.
`formats` reads inputs, `judging` judges answers, and `graphs` says what walks, flows, trees and cycles are.
"""
