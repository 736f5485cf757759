class Cell { int v; boolean repOk() { try { return none() == 0; } catch (Throwable t) { return true; } } int none() { if (v == 1) return 0; } }
