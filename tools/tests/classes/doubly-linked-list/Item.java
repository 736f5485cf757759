/** Something that lists hold in tests. */
final class Item {
    private final String name;

    Item(String name) {
        this.name = name;
    }

    @Override
    public String toString() {
        return name;
    }
}
