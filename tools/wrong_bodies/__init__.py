"""Wrong bodies, for tools/wrong-bodies: `blocks` reads them, `edits` finds the functions that they
change, `copies` lays them out, `checks` says what came of them, and `trials` runs it all."""
