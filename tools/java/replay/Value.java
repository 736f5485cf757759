package replay;

/** A value that a slot may have now: as it is told, the real one, and the object that it brings in where it is a new one. */
record Value(Object told, Object real, Cell fresh) {}
