class Cell { int v; boolean repOk() { try { int[] a = new int[63 + v]; return true; } catch (Throwable t) { return true; } } }
