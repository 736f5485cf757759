class Cell { int v; boolean repOk() { return true; }
  static class Full extends Exception { }
  void take() { if (v == 1) throw new Full(); } }
