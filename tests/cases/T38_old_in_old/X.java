class A { int v;
//@ ensures \old(\old(v)) == v;
void m() { } }