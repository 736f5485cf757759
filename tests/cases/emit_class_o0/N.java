class o0 { o0 o1; boolean repOk() { return o1 == this; } }
