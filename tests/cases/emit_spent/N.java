class N { N next; boolean repOk() { if (next == null) return true; while (true) { } } }
