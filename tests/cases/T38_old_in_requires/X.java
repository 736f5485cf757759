class A { int v;
//@ requires \old(v) == 1;
void m() { } }