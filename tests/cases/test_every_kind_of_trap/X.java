import java.util.*;
class Cell { int v; Cell o; boolean repOk() { return true; }
  void inc() {
    if (v == 0) o.v = 1;
    if (v == 1) v = 1 / (v - 1);
    if (v == 2) { int[] a = new int[2]; a[2] = 0; }
    if (v == 3) { int[] a = new int[-v]; }
    if (v == 4) { Cell c = this; Low l = (Low) c; }
    if (v == 5) { LinkedList<Cell> l = new LinkedList<Cell>(); l.removeFirst(); }
    if (v == 6) { int[] a = new int[65]; }
    if (v == 7) v = none();
  }
  int none() { }
}
class Low extends Cell { }
