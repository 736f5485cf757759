class N { N next; int[][] rows; boolean repOk() { return next == null; } }
