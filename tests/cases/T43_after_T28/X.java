class A {
//@ signals (A a) 1;
void m() { } }
