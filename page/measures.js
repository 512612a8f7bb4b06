// How large the parts of a picture are, from which width on a step has words, and how many bits
// are few enough to be drawn one by one, and values to have a button each.
export const LABEL = 136, MARGIN = 104, BAR = 30, FEW_CELLS = 12, FEW_VALUES = 8;
// how high a branch's row in the tree is
export const TREE_ROW = 27;
// how wide a column is at least that has a step's text, a tick's text, or a part of the step's
export const WORDY = 40, TICK_WORDS = 30, TINY = 24;
