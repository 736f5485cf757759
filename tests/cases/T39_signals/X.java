class A { int v;
//@ signals (Exception e) v++ == 1;
void m() { } }
