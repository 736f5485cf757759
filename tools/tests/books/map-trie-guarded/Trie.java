package books;

import java.util.Collections;
import java.util.HashMap;
import java.util.IdentityHashMap;
import java.util.Map;
import java.util.Set;

public class Trie {
    private class TrieNode {
        Map<Character, TrieNode> children = new HashMap<>();
        boolean endOfWord;
    }

    private final TrieNode root = new TrieNode();

    public void insert(String word) {
        TrieNode current = root;
        for (char c : word.toCharArray()) {
            current = current.children.computeIfAbsent(c, key -> new TrieNode());
        }
        current.endOfWord = true;
    }

    public boolean contains(String word) {
        TrieNode current = root;
        for (int i = 0; i < word.length(); i++) {
            current = current.children.get(word.charAt(i));
            if (current == null) return false;
        }
        return current.endOfWord;
    }

    boolean repOk() {
        return noDeadEnds(root, true, Collections.newSetFromMap(new IdentityHashMap<>()));
    }

    private boolean noDeadEnds(TrieNode node, boolean top, Set<TrieNode> seen) {
        if (!seen.add(node)) return false;
        if (!top && node.children.isEmpty() && !node.endOfWord) return false;
        for (Map.Entry<Character, TrieNode> e : node.children.entrySet()) {
            if (!Character.isLowerCase(e.getKey()) || !noDeadEnds(e.getValue(), false, seen)) return false;
        }
        return true;
    }
}
