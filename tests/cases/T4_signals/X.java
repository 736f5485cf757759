class A {
//@ signals (Exception e) true;
void m(int e) { } }
