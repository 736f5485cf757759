package replay;

/** A value of a slot's domain: one of its own, or any object of a type. */
record Choice(Object told, Object real, String type) {}
