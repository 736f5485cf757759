package replay;

/** An object as rows name it: its object domain or array type, and its number. */
record Name(String type, int number) {
    /** How the type of a collection's name ends. */
    static final String COLLECTION = "()";

    @Override
    public String toString() {
        return type.replace(COLLECTION, "") + "#" + number;
    }

    boolean isCollection() {
        return type.endsWith(COLLECTION);
    }

    /** Whether its slots are places and no fields. */
    boolean isIndexed() {
        return isArray() || isCollection();
    }

    boolean isArray() {
        return type.endsWith("]");
    }
}
