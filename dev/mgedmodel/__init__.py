"""A slow evaluator of scripts and models, written from README.md, docs/COMMANDS.md and docs/TEXT_FORM.md alone. `dev/model`
runs it.

refused     why a command is refused
words       lines as words, numbers, lengths, names and texts
positions   exact places on a ray
solids      planes, placements, boxes, solids, and the part of a ray in a solid
trees       boolean trees and the lists that users give
attributes  the seven attributes of a combination
directory   the named objects and what is kept with them, and their edits
written     the written text of objects, and of all
listings    the listings of trees
shots       the regions of names, the partitions of a ray, and what it meets first
slants      the partitions of a ray in a lattice direction, point by point
kept        what names a tile of a picture, and the tiles that a session keeps
pictures    views, the pictures of them, the overlaps on their rays, and the areas and edges of what their pixels present
texts       objects, kept attributes and titles as words
models      a whole model, read of a text
lines       which command a line is, or why it is none
script      the commands of a script, their run in an order of the sessions, its transcript and its status
demos       the demo of a number: its model and its script
calls       a whole call of the program: its words, the model that is loaded, the script, and its order
rows        rows of models and of words, with what is wanted of each
cases       cases of scripts, with what is wanted of each

Each module stands on those above it only. A new command is a reader in `lines` that answers an edit of `directory` or
a query; a new solid is a class in `solids` and a row in `lines` and in `texts`.
"""
