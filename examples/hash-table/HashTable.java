// A hash table of different integers with chains; a key stands in the bucket of its remainder.
class HashTable {
    static class Node {
        int key;
        Node next;
    }

    static class Bucket {
        Node first;
    }

    Bucket[] buckets;
    int count;

    boolean repOk() {
        if (buckets == null || buckets.length == 0) return false;
        int found = 0;
        for (int i = 0; i < buckets.length; i++) {
            Bucket bucket = buckets[i];
            if (bucket == null) return false;
            for (int j = 0; j < i; j++) {
                if (buckets[j] == bucket) return false;
            }
            int inBucket = 0;
            for (Node node = bucket.first; node != null; node = node.next) {
                found++;
                if (found > count) return false;
                if (node.key % buckets.length != i) return false;
                inBucket++;
                if (!isNew(bucket, node, inBucket)) return false;
            }
        }
        return found == count;
    }

    // No node before this one, the last of so many, has its key.
    private static boolean isNew(Bucket bucket, Node last, int number) {
        Node node = bucket.first;
        for (int i = 1; i < number; i++) {
            if (node.key == last.key) return false;
            node = node.next;
        }
        return true;
    }
}
