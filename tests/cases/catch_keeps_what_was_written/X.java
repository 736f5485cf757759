class Cell { int v; boolean repOk() { int x = 0; try { x = v; int y = x + 1; x = y; throw new Exception(); } catch (Exception e) { int y = 5; return x == v + 1 && y == 5; } } }
