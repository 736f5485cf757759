class Cell { Cell next; boolean repOk() { try { return next.next == null; } catch (NullPointerException e) { return true; } } }
