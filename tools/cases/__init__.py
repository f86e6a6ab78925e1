"""Sendai cases: a board, its given walls, its clues and the calls on it; read, written and drawn.

images     the eight images of a square, and which of them a puzzle's kind has
model      what a case is, the numbers of its borders, its rooms
read       a case from a path, standard input or a URL, whichever form it has
file       the case file that the program reads
drawing    a drawing in text
url        a puzzle's URL
program    the program, run on a case
turns      what the program answered, call by call
reasons    why a fault is one, in words
partners   which image of which unit is meant where a board is right
answers    the right boards of a case
text       boards as text
svg        boards as pictures
page       a case as pages of HTML
"""
