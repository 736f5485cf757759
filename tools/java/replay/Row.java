package replay;

/** A row: its text, and the structure. */
record Row(String text, Structure structure) {
    String key() {
        return text.substring(0, text.indexOf(' '));
    }
}
