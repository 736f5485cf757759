class A {
//@ requires new A() != null;
void m() { } }