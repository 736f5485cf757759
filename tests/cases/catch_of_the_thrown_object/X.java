class Cell { int v; boolean repOk() { Exception kept = new Exception(); try { if (v == 1) throw new Exception(); throw kept; } catch (Exception e) { return e == kept; } } }
