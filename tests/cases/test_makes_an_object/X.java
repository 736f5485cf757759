class Node { int v; Node next; }
class L { Node head; int size;
  boolean repOk() { int n = 0; for (Node k = head; k != null; k = k.next) { n++; if (n > size) return false; } return n == size; }
  //@ ensures size == \old(size) + 1;
  //@ ensures head.v == x && head.next == \old(head);
  void add(int x) { Node k = new Node(); k.v = x; k.next = head; head = k; size++; }
  //@ ensures size == \old(size) + 1;
  void bad(int x) { Node k = new Node(); k.v = x; k.next = head; head = k; } }
