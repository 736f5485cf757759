class N { static final int Z = 1 + 1; N next; boolean repOk() { return next != null && next.next == null; } }
