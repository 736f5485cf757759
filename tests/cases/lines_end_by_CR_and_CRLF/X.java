class A {
  int m() {    return
 z; } }