class Cell { int v; boolean repOk() { try { if (v == 1) throw new RuntimeException(); return true; } catch (IllegalStateException e) { return true; } } }
