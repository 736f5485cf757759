class N { N next; boolean repOk() { return next != null && next.next == null; } }
