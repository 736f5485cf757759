package replay;

/** A value of a domain as it is written: the integers from `from` to `to`, a truth value, or a name. */
record Item(long from, long to, Boolean truth, String name) {}
