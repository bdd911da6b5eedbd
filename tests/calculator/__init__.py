"""The river cabinet worked out from documents 01 and 02 (M-100 to M-105, M-107) alone, apart from the proved crates: in whole numbers, in
fractions, and as the program."""
