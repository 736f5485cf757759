package adapt;

import java.util.ArrayList;
import java.util.LinkedHashMap;
import java.util.List;
import java.util.Map;

/** Reads the part of TOML in which finitizations are written. */
final class Toml {
    private final String text;
    private int at;

    private Toml(String text) {
        this.text = text;
    }

    /** Tables as maps in their order, arrays as lists, integers as Long, texts and booleans. */
    static Map<String, Object> read(String text) {
        return new Toml(text).document();
    }

    private Map<String, Object> document() {
        Map<String, Object> root = new LinkedHashMap<>();
        Map<String, Object> table = root;
        for (skip(true); at < text.length(); skip(true)) {
            if (take("[")) {
                table = root;
                for (String key : keys()) table = tableIn(table, key);
                expect("]");
            } else {
                pair(table);
            }
            skip(false);
            if (at < text.length() && text.charAt(at) != '\n') throw wrong();
        }
        return root;
    }

    private void pair(Map<String, Object> table) {
        List<String> keys = keys();
        expect("=");
        skip(false);
        for (String key : keys.subList(0, keys.size() - 1)) table = tableIn(table, key);
        if (table.put(keys.get(keys.size() - 1), value()) != null) throw wrong();
    }

    @SuppressWarnings("unchecked")
    private Map<String, Object> tableIn(Map<String, Object> table, String key) {
        Object inner = table.computeIfAbsent(key, name -> new LinkedHashMap<String, Object>());
        if (inner instanceof Map) return (Map<String, Object>) inner;
        throw wrong();
    }

    private List<String> keys() {
        List<String> keys = new ArrayList<>();
        do {
            skip(false);
            keys.add(at < text.length() && (text.charAt(at) == '"' || text.charAt(at) == '\'') ? quoted() : bare());
            skip(false);
        } while (take("."));
        return keys;
    }

    private Object value() {
        char c = at < text.length() ? text.charAt(at) : ' ';
        if (c == '"' || c == '\'') return quoted();
        if (take("[")) return items();
        if (take("{")) return inline();
        String word = bare();
        if (word.equals("true") || word.equals("false")) return word.equals("true");
        try {
            String digits = word.replace("_", "").replaceFirst("^\\+", "");
            return digits.matches("0[ob].*")
                    ? Long.parseLong(digits.substring(2), digits.charAt(1) == 'o' ? 8 : 2)
                    : Long.decode(digits);
        } catch (NumberFormatException e) {
            throw wrong();
        }
    }

    private List<Object> items() {
        List<Object> items = new ArrayList<>();
        for (skip(true); !take("]"); skip(true)) {
            items.add(value());
            skip(true);
            if (!take(",") && (at >= text.length() || text.charAt(at) != ']')) throw wrong();
        }
        return items;
    }

    private Map<String, Object> inline() {
        Map<String, Object> table = new LinkedHashMap<>();
        for (skip(true); !take("}"); skip(true)) {
            pair(table);
            skip(true);
            if (!take(",") && (at >= text.length() || text.charAt(at) != '}')) throw wrong();
        }
        return table;
    }

    private String quoted() {
        char quote = text.charAt(at++);
        int end = text.indexOf(quote, at);
        if (end < 0 || text.substring(at, end).matches("(?s).*[\\n\\\\].*")) throw wrong();
        String result = text.substring(at, end);
        at = end + 1;
        return result;
    }

    private String bare() {
        int start = at;
        while (at < text.length() && (Character.isLetterOrDigit(text.charAt(at)) || "_-+".indexOf(text.charAt(at)) >= 0)) at++;
        if (at == start) throw wrong();
        return text.substring(start, at);
    }

    private boolean take(String token) {
        if (!text.startsWith(token, at)) return false;
        at += token.length();
        return true;
    }

    private void expect(String token) {
        skip(false);
        if (!take(token)) throw wrong();
    }

    private void skip(boolean lines) {
        while (at < text.length()) {
            char c = text.charAt(at);
            if (c == '#') while (at < text.length() && text.charAt(at) != '\n') at++;
            else if (c == ' ' || c == '\t' || c == '\r' || lines && c == '\n') at++;
            else return;
        }
    }

    private IllegalArgumentException wrong() {
        long line = 1 + text.substring(0, Math.min(at, text.length())).chars().filter(c -> c == '\n').count();
        return new IllegalArgumentException("line " + line);
    }
}
