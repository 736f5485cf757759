class Cell { int v; }
